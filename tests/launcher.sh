#!/bin/sh
# The launcher, ./potmeander, about the program: calls, kits, when it proves and when not, folders, interrupts. The proofs are stand-ins here;
# tests/program.sh has a real one.
set -eu
cd "$(dirname "$0")/.."
. tests/lib/build.sh
c_programs
for tool in terminal odd; do
    c_object "$built/$tool.o" "tests/lib/$tool.c"
    c_program "$built/$tool" "$built/$tool.o"
done
. tests/lib/clone.sh
export TMPDIR="$room/tmp"
mkdir "$TMPDIR"

# Kits, to be given by RATTLE_HOME: one that proves; one that fails, though it leaves a program; one that makes another program; one that is slow
kit_with 'echo "rt: promise proved"' "$(into_place target/bin/potmeander)" && proving=$kit
kit_with 'echo "rt: sensor NOT PROVED"' "$(into_place target/bin/potmeander)" 'exit 1' && failing=$kit
kit_with "$(into_place "$built/odd")" && odd=$kit
kit_with 'mktemp >/dev/null' "while sleep 0.1 && echo >>'$room/proving'; do :; done" && slow=$kit

# expect STATUS TEXT [ARGUMENT...]: the status, and words that were said, or written; `path` is the launcher's
path=$PATH
expect() {
    want=$1 text=$2 status=0
    shift 2
    PATH=$path "$clone/potmeander" "$@" <examples/full.session >"$room/log" 2>"$room/said" || status=$?
    [ "$status" -eq "$want" ] || fail "'$text': status $status and not $want: $(cat "$room/said")"
    cat "$room/said" "$room/log" | grep -aqF -e "$text" || fail "not '$text' but: $(cat "$room/said" "$room/log")"
}

# comes FILE: waits, a minute at most, until there is something in $room/FILE
comes() {
    for _ in $(seq 600); do
        [ ! -s "$room/$1" ] || return 0
        sleep 0.1
    done
    fail "nothing came to $1"
}

# A source that is not what it was, with an old date
changed=$clone/crates/potmeander/src/saying.rt
change() {
    echo '// changed' >>"$changed"
    touch -d 2001-01-01 "$changed"
}

said='potmeander: 6 records, 32 bytes read; 41 ticks; 28 bytes logged'

# ---- calls
export RATTLE_HOME="$proving"
expect 0 'the session was taken whole, and its log was written whole' --help
expect 0 'potmeander, not proved and built yet' --version
expect 0 'commit  not known' --version
# what a check leaves beside a crate is no source
mkdir "$clone/crates/widen/out"
echo left >"$clone/crates/widen/out/left.antt"
expect 0 "sources sha256 $(c_sources sha256sum {} + | LC_ALL=C sort -k 2 | sha256sum | cut -d ' ' -f 1)" --version
expect 0 "kit     $(rt version)" --version
expect 2 'not a call: session.bin' session.bin
expect 2 'not a call: --help me' --help me
expect 2 './potmeander compare DEVICE MODEL' --help me
expect 0 './potmeander show <LOG' --help
for call in --help --version; do
    status=0
    "$clone/potmeander" $call <examples/full.session >&- 2>/dev/null || status=$?
    [ "$status" -eq 3 ] || fail "$call that is not written: status $status"
    [ ! -e "$clone/build" ] || fail "$call that is not written goes on to a session"
done

# ---- kits: none; none where RATTLE_HOME says
mkdir "$room/bin"
for tool in sh cat chmod cp cut dirname find flock mkdir mkfifo mktemp mv readlink rm sed setsid sha256sum sort tail uname; do
    ln -s "$(command -v "$tool")" "$room/bin/$tool"
done
path=$room/bin
unset RATTLE_HOME
expect 2 'rt, the Rattle kit'
export RATTLE_HOME="$room/nowhere"
expect 2 "RATTLE_HOME is $room/nowhere, and no kit is there"
export RATTLE_HOME="$room"
expect 2 "RATTLE_HOME is $room, and no kit is there"

# ---- where there is no program yet: a folder that cannot be written, a proof that fails, a proof by the kit of the path
export RATTLE_HOME="$failing"
: >"$clone/build"
expect 2 'the folder build cannot be written'
rm "$clone/build"
mkdir "$clone/build" && echo stale >"$clone/build/proof.log"
expect 2 'the program is not proved and built, so it is not run'
grep -q 'rt: sensor NOT PROVED' "$room/said" || fail "what the kit said is not shown: $(cat "$room/said")"
! grep -q stale "$room/said" || fail 'an older log is shown'
unset RATTLE_HOME
path=$proving/bin:$room/bin
expect 0 'potmeander: proved and built'
path=$room/bin
export RATTLE_HOME="$proving"
expect 0 "$said"
path=$PATH
[ "$(cat "$room/said")" = "$said" ] || fail "a built program: $(cat "$room/said")"
expect 0 'potmeander, proved and built' --version
# nothing that the gate meets: target/ and what a check leaves are its own, and it takes each source outside of crates/ for one that is not proved
[ ! -e "$clone/target" ] || fail 'target/ is the gate'\''s'
[ "$(echo "$clone"/crates/*/out)" = "$clone/crates/widen/out" ] || fail 'something is left beside a crate'
[ -z "$(find "$clone/build" -name '*.rt' -o -name '*.antt')" ] || fail 'sources are left in build/'

# ---- by what the sources are, and the kit: a change is proved whatever its date, and what is proved is not proved again
export RATTLE_HOME="$failing"
expect 0 "$said"
cp "$changed" "$room/kept"
change
expect 2 'the program is not proved and built, so it is not run'
cp "$room/kept" "$changed"
expect 0 "$said"
rm "$failing/KIT-ID"
echo 'another kit' >"$failing/KIT-ID"
expect 2 'the program is not proved and built, so it is not run'

# ---- a commit has a name, and what is changed since has not
if command -v git >/dev/null; then
    by_git() { git -C "$clone" -c init.defaultBranch=main -c user.name=test -c user.email=test@localhost "$@" >/dev/null; }
    echo build/ >"$clone/.gitignore"
    by_git init && by_git add . && by_git commit -m test
    expect 0 "commit  $(git -C "$clone" rev-parse HEAD)" --version
    ! grep -q 'and changes' "$room/log" || fail "no changes: $(cat "$room/log")"
    change
    expect 0 ', and changes' --version
    cp "$room/kept" "$changed"
fi

# ---- a program that does not come to its end, whatever it said
export RATTLE_HOME="$odd"
change
expect 3 'before it had said what it read: the log is not whole'
grep -qx 'a line before it' "$room/said" || fail "what came first is not shown: $(cat "$room/said")"
change

# ---- words that reach nobody: it is built all the same
export RATTLE_HOME="$proving"
"$clone/potmeander" <examples/full.session >"$room/log" 2>&- || fail "standard error closed: status $?"
cmp examples/full.log "$room/log"
if [ -w /dev/full ]; then
    change
    "$clone/potmeander" <examples/full.session >"$room/log" 2>/dev/full || fail "standard error full: status $?"
    cmp examples/full.log "$room/log"
fi

# ---- it starts in less than half a second, the least of three
least=500000000
for _ in 1 2 3; do
    began=$(date +%s%N)
    expect 0 "$said"
    took=$(($(date +%s%N) - began))
    [ "$took" -ge "$least" ] || least=$took
done
[ "$least" -lt 500000000 ] || fail 'a built program takes half a second to start'

# ---- a terminal as standard input, opened where it becomes nobody's own
if [ -c /dev/ptmx ]; then
    mkfifo "$room/hold"
    c_run "$built/terminal" <"$room/hold" >"$room/terminal" &
    exec 8>"$room/hold"
    comes terminal
    ("$clone/potmeander" <"$(cat "$room/terminal")" 2>"$room/said") || fail "a terminal: status $?: $(cat "$room/said")"
    exec 8>&-
    grep -q 'reading a session from this terminal, until Ctrl-D' "$room/said" || fail "a terminal: $(cat "$room/said")"
fi

# ---- interrupts. The session comes from `live`, which then waits until it is told to end
live() {
    cat examples/full.session
    while [ -d "$room" ] && [ ! -e "$room/over" ]; do sleep 0.1; done
}
mkfifo "$room/live"

# runs_live: a run, in a process group of its own, that has logged all that came and waits for more
runs_live() {
    rm -f "$room/over" "$room/log"
    live >"$room/live" &
    setsid "$clone/potmeander" <"$room/live" >"$room/log" 2>"$room/said" &
    launcher=$!
    comes log
}

# interrupted STATUS TEXT: the launcher was ended by the signal, and said that; nothing that it started goes on
interrupted() {
    status=0
    wait "$launcher" 2>/dev/null || status=$?
    [ "$status" -eq "$1" ] || fail "interrupted: status $status: $(cat "$room/said")"
    grep -q "$2" "$room/said" || fail "interrupted: $(cat "$room/said")"
    ! grep -lq "$clone/build/" /proc/[0-9]*/cmdline 2>/dev/null || fail 'the program goes on'
}

# of the launcher alone, of a run that built its program: the lock is free meanwhile
change
runs_live
flock -n "$clone/build/lock" true || fail 'the lock is held while a session is read'
kill -s TERM "$launcher"
logged='.*'
[ ! -r /proc/self/io ] || logged=28
interrupted 143 "^potmeander: the session was not read to its end; $logged bytes logged; interrupted\$"
cmp examples/full.log "$room/log"
: >"$room/over"
sleep 0.5 # the writer has ended
# of its whole group, and then the writer ends
for signal in TERM HUP; do
    runs_live
    kill -s "$signal" -- "-$launcher"
    : >"$room/over"
    case $signal in TERM) interrupted 143 "^$said; interrupted\$" ;; HUP) interrupted 129 "^$said; interrupted\$" ;; esac
    sleep 0.3
done
# while it proves: the proof is ended too
export RATTLE_HOME="$slow"
change
"$clone/potmeander" <examples/full.session >"$room/log" 2>"$room/said" &
launcher=$!
comes proving
kill -s TERM "$launcher"
interrupted 143 '^potmeander: interrupted; nothing was read$'
cp "$room/proving" "$room/then"
sleep 0.5
cmp "$room/proving" "$room/then" || fail 'the proof goes on after an interrupt'
[ -z "$(ls "$TMPDIR")" ] || fail "left behind: $(ls "$TMPDIR")"
echo 'the launcher: calls, kits, proofs, folders, a terminal and interrupts as they must be'
