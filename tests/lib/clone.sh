# A clone of what ./potmeander needs, unbuilt, and kits whose `rt` is a stand-in. To be sourced behind build.sh:
#   room               a temporary folder, removed at the end
#   clone              the clone in it; clone/potmeander is the launcher
#   kit_with LINE...   a kit, in $kit, whose `rt` is these lines of sh and whose other parts are the kit's
#   into_place MODEL   such a line: what it builds is MODEL, and for the other program target/bin/logs, which build.sh's c_programs has made
#   fail WORDS         ends the test

room=$(mktemp -d)
chmod 755 "$room"
trap 'rm -rf "$room"' EXIT
trap 'exit 1' INT TERM HUP
clone=$room/clone
mkdir "$clone"
cp -R potmeander .ci "$clone"
c_sources cp --parents -t "$clone" {} +

fail() {
    echo "$*" >&2
    exit 1
}

into_place() {
    printf 'mkdir -p crates/potmeander/out crates/logs/out && cp %s crates/potmeander/out/potmeander && cp %s crates/logs/out/logs' \
        "'$PWD/$1'" "'$PWD/target/bin/logs'"
}

kit_with() {
    kit=$(mktemp -d "$room/kit.XXXXXX")
    mkdir "$kit/bin"
    for part in "$c_kit"/*; do
        [ "${part##*/}" = bin ] || ln -s "$part" "$kit"
    done
    printf '%s\n' '#!/bin/sh' "$@" >"$kit/bin/rt"
    chmod +x "$kit/bin/rt"
}
