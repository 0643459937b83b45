# Builds and runs C with the kit's own compiler and C library; nothing else need be installed. To be sourced, from the root of the
# repository:
#   c_library CRATE                     proves the calls of a crate for C and writes target/staticlib/libCRATE.a, where that is not done
#   c_programs                          proves the programs and writes target/bin/potmeander and target/bin/logs, where that is not done
#   c_sources COMMAND... {} +           a command on the sources, all but what a check leaves
#   c_object OBJECT SOURCE [FLAG...]    compiles one source for x86-64, the library's machine
#   c_program PROGRAM OBJECT...         links objects and archives
#   c_run PROGRAM [ARGUMENT...]         runs a program; on a machine other than x86-64 under the kit's emulator
#   built                               the folder for what is built
# The kit is where `rt` is; RATTLE_HOME overrides that. It has no C headers, so those that the tests use are in tests/lib/include.

c_kit=${RATTLE_HOME:-$(dirname "$(dirname "$(readlink -f "$(command -v rt)")")")}
c_machine=$(uname -m)
c_tools=$c_kit/toolchain
if [ ! -x "$c_tools/bin/clang" ] || ! { [ "$c_machine" = x86_64 ] || [ -x "$c_tools/bin/qemu-x86_64" ]; }; then
    echo "no compiler for $c_machine in the kit: is rt on the path?" >&2
    exit 2
fi

built=target/c
mkdir -p "$built"

c_sources() {
    c_handles=
    [ ! -e HANDLES ] || c_handles=HANDLES
    find crates.txt $c_handles crates -path 'crates/*/out' ! -path 'crates/*/*/out' -prune -o -type f -exec "$@"
}

# What these files are made of, and they: of the kit and the sources, and of their own bytes.
c_state() {
    { rt version && sha256sum "$@" && c_sources sha256sum {} + | LC_ALL=C sort -k 2; } 2>&1 | sha256sum
}

# To prove a crate for its archive takes as long as to check it: one that an earlier test made of the same is linked again.
c_library() {
    c_made=target/staticlib.$1.made
    c_archive=target/staticlib/lib$1.a
    if [ -f "$c_archive" ] && [ "$(cat "$c_made" 2>/dev/null)" = "$(c_state "$c_archive")" ]; then
        return
    fi
    rm -f "$c_made"
    .ci/archive "$1" || return 1
    c_state "$c_archive" >"$c_made"
}

# By what the launcher calls.
c_programs() {
    c_made=target/bin.made
    if [ -f target/bin/potmeander ] && [ "$(cat "$c_made" 2>/dev/null)" = "$(c_state target/bin/potmeander target/bin/logs)" ]; then
        return
    fi
    rm -rf "$c_made" target/bin
    mkdir target/bin
    c_work=$(mktemp -d)
    c_sources cp --parents -t "$c_work" {} + || return 1
    RATTLE_HOME=$c_kit .ci/prove "$c_work" "$PWD/target/bin/potmeander" >target/program.log 2>&1 </dev/null ||
        { cat target/program.log >&2; return 1; }
    mv target/bin/potmeander.logs target/bin/logs
    c_state target/bin/potmeander target/bin/logs >"$c_made"
}

c_object() {
    c_out=$1 c_source=$2
    shift 2
    "$c_tools/bin/clang" --target=x86_64-unknown-linux-gnu -std=c11 -O2 -fPIE -Wall -Wextra -Werror \
        -nostdinc -Itests/lib/include -Iinclude "$@" -c "$c_source" -o "$c_out"
}

c_program() {
    c_out=$1
    shift
    "$c_tools/bin/ld.lld" -pie -o "$c_out" \
        "$c_tools/lib/Scrt1.o" "$c_tools/lib/crti.o" "$c_tools/lib/crtbeginS.o" \
        "$@" "$c_tools/lib/libc.so.6" "$c_tools/lib/libc_nonshared.a" "$c_tools/lib/libgcc.a" \
        "$c_tools/lib/crtendS.o" "$c_tools/lib/crtn.o"
}

c_run() {
    set -- "$c_tools/lib/ld-linux-x86-64.so.2" --library-path "$c_tools/lib" "$@"
    [ "$c_machine" = x86_64 ] || set -- "$c_tools/bin/qemu-x86_64" "$@"
    "$@"
}
