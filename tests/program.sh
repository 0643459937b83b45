#!/bin/sh
# Runs ./potmeander: two at once where it is not built; sessions and logs far longer than its buffers, cut and fed in odd pieces, against
# one call of the second implementation; inputs and outputs that fail; every example; and the status of each.
#   tests/program.sh [all]     all: the second implementation reads the example of seven years too, tick by tick, which takes minutes
set -eu
cd "$(dirname "$0")/.."
. tests/lib/build.sh

c_object "$built/whole.o" tests/lib/whole.c
c_object "$built/second.o" tests/second/second.c
for tool in one_call feeder big_session; do
    c_object "$built/$tool.o" "tests/lib/$tool.c"
done
c_program "$built/one_call" "$built/one_call.o" "$built/second.o" "$built/whole.o"
c_program "$built/feeder" "$built/feeder.o" "$built/whole.o"
c_program "$built/big_session" "$built/big_session.o" "$built/whole.o"

c_programs
. tests/lib/clone.sh

# ---- two at once, two seconds apart: one proves and builds, the other waits. What is proved is the program, since a comment in it is new; the crates
# below it, and the other program, are as `rt ci` has kept them
sed '1s/^/\/\/ Once more.\n/' crates/potmeander/src/saying.rt >"$clone/crates/potmeander/src/saying.rt"
kit_with 'sleep 3' "exec '$c_kit/bin/rt' \"\$@\""
export RATTLE_HOME="$kit"
potmeander=$clone/potmeander
"$potmeander" <examples/full.session >"$room/one.log" 2>"$room/one.said" &
one=$!
sleep 2
"$potmeander" <examples/full.session >"$room/two.log" 2>"$room/two.said" || fail "the second of two: $(cat "$room/two.said")"
wait "$one" || fail "the first of two: $(cat "$room/one.said")"
full='6 records, 32 bytes read; 41 ticks'
crates=$(sed -n 's/^potmeander: proving and building the program, \([0-9]*\) crates, .*/\1/p' "$room/one.said")
[ "$(grep -c "^potmeander: proved [0-9]* of $crates: " "$room/one.said")" -eq "$crates" ] || fail "not a line for each crate: $(cat "$room/one.said")"
[ "$(cat "$room/two.said")" = "potmeander: another run is proving and building the program: waiting for it; what the kit says is in $clone/build/proof.log
potmeander: $full; 28 bytes logged" ] || fail "the second of two: $(cat "$room/two.said")"
cmp examples/full.log "$room/one.log"
cmp examples/full.log "$room/two.log"

# one_call SESSION: what the program must write and say, in $room/log and $room/said.
one_call() {
    c_run "$built/one_call" <"$1" >"$room/log" 2>"$room/said" || fail "the second implementation failed: $2"
}

# run: the program, its words in $room/own.said and its status in $status
run() {
    status=0
    "$potmeander" 2>"$room/own.said" || status=$?
}

# is STATUS NAME
is() { [ "$status" -eq "$1" ] || fail "$2: status $status and not $1"; }

# same NAME: the program wrote and said that, in $room/own.log and $room/own.said, and its status is by that; the words of a refusal are left out.
same() {
    if grep -q 'record refused' "$room/said"; then is 1 "$1"; else is 0 "$1"; fi
    cmp "$room/log" "$room/own.log" || fail "$1: another log"
    sed 's/\(refused at byte [0-9]*: [0-9]*\), .*/\1/' "$room/own.said" | cmp "$room/said" - || fail "$1: said $(cat "$room/own.said")"
}

# check NAME: $room/session read from a file
check() {
    one_call "$room/session" "$1"
    run <"$room/session" >"$room/own.log"
    same "$1"
}

# fed NAME MOST: the same from a pipe, in pieces of 1 to MOST bytes
fed() {
    status=0
    { c_run "$built/feeder" "$2" <"$room/session" || : >"$room/starved"; } | "$potmeander" >"$room/own.log" 2>"$room/own.said" || status=$?
    [ ! -e "$room/starved" ] || fail "$1: the feeder failed"
    same "$1, in pieces of 1 to $2"
}

make() { c_run "$built/big_session" "$@" >"$room/session"; }

# ---- far over 64 KiB: input, output, both
make queries 40000
check 'queries'
make reports 2
check 'reports'
# SHIFT ticks of four bytes move the buffer's end over every byte of a record
for shift in 0 1 2 3 4 5 6; do
    make mixed "$shift" "$shift"
    check "mixed, shifted by $shift"
done
fed 'mixed' 11

# ---- an end at every place of the last records: each cut but those between records is number 2
cp "$room/session" "$room/whole"
size=$(wc -c <"$room/whole")
for cut in 0 1 2 3 4 5 6 7 8 9 10 11 12; do
    head -c $((size - cut)) "$room/whole" >"$room/session"
    check "mixed, $cut bytes cut"
done
fed 'mixed, cut' 3

# ---- refused in the middle, past the first buffer
head -c 70001 "$room/whole" >"$room/session"
printf 'XX' >>"$room/session"
cat "$room/whole" >>"$room/session"
check 'a stray mark'

# ---- nothing at all; inputs and outputs that fail
# says STATUS TEXT: the status, and the whole of what the program said
says() {
    is "$1" "$2"
    [ "$(cat "$room/own.said")" = "potmeander: $2" ] || fail "not '$2' but '$(cat "$room/own.said")'"
}

: >"$room/session"
check 'nothing'
lost='writing the log failed, 28 bytes of it lost, and the session was not read further'
run <examples/full.session >&-
says 3 "$full; 0 bytes logged; $lost"
if [ -w /dev/full ]; then
    run <examples/full.session >/dev/full
    says 3 "$full; 0 bytes logged; $lost"
fi
head -c 31 examples/full.session >"$room/session"
run <"$room/session" >&-
says 3 '5 records, 27 bytes read; 41 ticks; 0 bytes logged; writing the log failed, 20 bytes of it lost, and the session was not read further'
unread='0 records, 0 bytes read; 0 ticks; 0 bytes logged; reading the session failed after 0 bytes'
run <&-
says 3 "$unread"
run <"$room"
says 3 "$unread"
run <&- >&-
says 3 "$unread"
# a reader that goes away after the first bytes of a long log
make queries 40000
{ run <"$room/session" && echo "$status" >"$room/status"; } | head -c 1 >/dev/null
status=$(cat "$room/status")
is 3 'a reader that went away'
grep -q '^potmeander: .* bytes logged; writing the log failed, [0-9]* bytes of it lost, and the session was not read further$' "$room/own.said" ||
    fail "a reader that went away: $(cat "$room/own.said")"
# the words do not reach anyone, and the status is the same
status=0
"$potmeander" <examples/refused_7.session >/dev/null 2>&- || status=$?
is 1 'standard error closed'

# ---- the examples, from another folder too
examples/make.sh "$room"
for session in examples/*.session; do
    name=${session%.session}
    cmp "$session" "$room/${session##*/}" || fail "examples/make.sh does not make $session"
    (cd "$room" && run && echo "$status" >"$room/status") <"$session" >"$room/own.log"
    status=$(cat "$room/status")
    if [ "$name" != examples/refused_8 ] || [ "${1:-}" = all ]; then
        one_call "$session" "$name"
        same "$name"
    fi
    case $name in */refused_*) is 1 "$name" ;; *) is 0 "$name" ;; esac
    cmp "$room/own.log" "$name.log"
    cmp "$room/own.said" "$name.said"
done
echo "$(ls examples/*.session | wc -l) examples and the long sessions: as in one call"
