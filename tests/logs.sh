#!/bin/sh
# Runs ./potmeander compare and ./potmeander show: the words and the status of each outcome; logs far longer than the buffers, and in odd pieces; files
# that cannot be read; wrong calls. And the program alone, over many pairs of logs. What it must say is lib/laid.c's, by the second implementation.
#   tests/logs.sh [SEED [COUNT]]     COUNT pairs (300) from SEED (1)
set -eu
cd "$(dirname "$0")/.."
. tests/lib/build.sh
seed=${1:-1} count=${2:-300}

for source in lib/laid lib/pairs lib/whole lib/feeder second/compared; do
    c_object "$built/${source##*/}.o" "tests/$source.c"
done
c_program "$built/laid" "$built/laid.o" "$built/pairs.o" "$built/compared.o"
c_program "$built/feeder" "$built/feeder.o" "$built/whole.o"
c_programs
. tests/lib/clone.sh
kit_with "$(into_place target/bin/potmeander)"
export RATTLE_HOME="$kit"
potmeander=$clone/potmeander
"$potmeander" show </dev/null 2>/dev/null || fail "it is not built: status $?"

# is STATUS NAME
is() { [ "$status" -eq "$1" ] || fail "$2: status $status and not $1: $(cat "$room/said")"; }

# call WORD...: a call of the launcher, what it writes in $room/out and says in $room/said, and its status
call() {
    status=0
    "$potmeander" "$@" >"$room/out" 2>"$room/said" || status=$?
}

# ---- compare: the program alone, over pairs of every profile
for number in $(seq "$seed" $((seed + count - 1))); do
    c_run "$built/laid" pair "$number" 3>"$room/device" 4>"$room/model" >"$room/want" || fail "pair $number is not made"
    c_run target/bin/logs compare 3<"$room/device" 4<"$room/model" >"$room/out" 2>&1 || fail "pair $number: status $?"
    cmp "$room/want" "$room/out" || fail "pair $number: $(cat "$room/out")"
done

# same NAME: what was written is what must be said of $room/device and $room/model, nothing else is said, and the status is that of its first line
same() {
    c_run "$built/laid" 3<"$room/device" 4<"$room/model" >"$room/want"
    cmp "$room/want" "$room/out" || fail "$1: $(cat "$room/out" "$room/said")"
    [ ! -s "$room/said" ] || fail "$1: said $(cat "$room/said")"
    case $(head -n 1 "$room/want") in
    'the logs are equal: '*) is 0 "$1" ;;
    *' bad record: '*) is 2 "$1" ;;
    *) is 1 "$1" ;;
    esac
}

# check NAME [TEXT]: the two files, and words that are among what is said
check() {
    call compare "$room/device" "$room/model"
    same "$1"
    grep -qF -e "${2-}" "$room/out" || fail "$1: not '$2' but: $(cat "$room/out")"
}

# differing PATCH OFFSET: $room/model is the example's log, and $room/device that with other bytes from an offset on
log=examples/compare.model.log
size=$(wc -c <"$log")
differing() {
    cp "$log" "$room/model"
    { head -c "$2" "$log" && printf "$1" && tail -c +"$(($2 + 1 + $(printf "$1" | wc -c)))" "$log"; } >"$room/device"
}
swap() { mv "$room/device" "$room/kept" && mv "$room/model" "$room/device" && mv "$room/kept" "$room/model"; }

# ---- the example, from another folder too
examples/make.sh "$room"
cmp examples/compare.device.log "$room/compare.device.log" || fail 'examples/make.sh does not make compare.device.log'
call compare examples/compare.device.log "$log"
is 1 'the example'
cmp examples/compare.said "$room/out"
(cd examples && call compare compare.device.log compare.model.log && is 1 'from another folder')
cmp examples/compare.said "$room/out"

# ---- each outcome
cp "$log" "$room/device" && cp "$log" "$room/model"
check 'equal' "the logs are equal: 19 records, $size bytes"
head -c 142 "$log" >"$room/device"
check 'the device'\''s ends' 'the device'\''s log ends at record 15, byte 142, and the model'\''s goes on; up to there they are equal'
swap
check 'the model'\''s ends' 'the model'\''s log ends at record 15, byte 142, and the device'\''s goes on; up to there they are equal'
: >"$room/model"
check 'one is empty' 'the model'\''s log ends at record 0, byte 0'
: >"$room/device"
check 'both are empty' 'the logs are equal: 0 records, 0 bytes'
differing '\001' 149
check 'the same tick' 'first difference: priority; both at the same tick'
differing '\000\001\031\101' 144
check 'late by one' 'first difference: tick; the device was 1 tick (0.05 s) late'
differing '\377\377\377\377' 144
check 'the last tick' 'first difference: tick; the device was 4294895295 ticks (214744764.75 s) late'
differing '\377' 15
check 'an answer' 'first difference: answer'
differing 'AN' 142
check 'another mark' 'bad record'
differing 'XX' 162
check 'a bad mark' 'the device'\''s log has a bad record: record 17, byte 162: 1, mark unknown'
swap
check 'a bad mark in the model'\''s' 'the model'\''s log has a bad record: record 17, byte 162: 1, mark unknown'
printf 'X' >>"$room/device"
check 'bad in both, the device'\''s first' "the device's log has a bad record: record 19, byte $size: 2, fewer bytes remain"
differing '\000\001\031\055' 144
head -c $((size - 1)) "$room/model" >"$room/cut" && mv "$room/cut" "$room/model"
check 'cut by a byte, behind the difference' \
    'the model'\''s log has a bad record: record 18, byte 172: 2, fewer bytes remain than the mark, or the record, needs'
cp examples/full.session "$room/device"
check 'a session for a log' 'the device'\''s log has a bad record: record 0, byte 0: 1, mark unknown'

# ---- standard input for either, and pieces through a pipe
differing '\000\001\031\055' 144
call compare - "$room/model" <"$room/device"
same 'standard input for the device'\''s'
call compare "$room/device" - <"$room/model"
same 'standard input for the model'\''s'
{ call compare - "$room/model" && cat >"$room/rest"; } <"$room/device"
same 'standard input that others go on to read'
[ ! -s "$room/rest" ] || fail 'what was compared is left on standard input'
mkfifo "$room/fifo"
for most in 1 7 9; do
    c_run "$built/feeder" "$most" <"$room/model" | { call compare "$room/device" - && echo "$status" >"$room/status"; }
    status=$(cat "$room/status")
    same "the model's in pieces of 1 to $most"
    cat "$room/device" >"$room/fifo" &
    c_run "$built/feeder" "$most" <"$room/model" | { call compare "$room/fifo" - && echo "$status" >"$room/status"; }
    status=$(cat "$room/status")
    same "the device's through a named pipe, the model's in pieces of 1 to $most"
done

# ---- far over 64 KiB: a difference at each record about the end of the first buffer; a bad record behind it; a cut at each place of the last record
repeated() { for _ in 1 2 3 4 5 6 7 8; do cat "$1" "$1" "$1" "$1" "$1" "$1" "$1" "$1"; done; }
repeated "$log" >"$room/eight" && repeated "$room/eight" >"$room/whole"
long=$(wc -c <"$room/whole")
[ "$long" -gt 131072 ] || fail 'the long log is short'
for offset in 65500 65517 65526 65534 65535 65536 65537 65545 131071; do
    { head -c "$offset" "$room/whole" && printf '\252' && tail -c +$((offset + 2)) "$room/whole"; } >"$room/device"
    cp "$room/whole" "$room/model"
    check "long logs, byte $offset"
    printf 'XX' >>"$room/model"
    check "long logs, byte $offset, and a bad record behind"
done
for cut in 0 1 2 6 7 8 9; do
    cp "$room/whole" "$room/device"
    head -c $((long - cut)) "$room/whole" >"$room/model"
    check "long logs, $cut bytes cut"
done

# ---- trouble: nothing is found, and it is said why
# trouble TEXT WORD...
trouble() {
    text=$1
    shift
    call "$@"
    is 2 "$text"
    [ ! -s "$room/out" ] || fail "$text: wrote $(cat "$room/out")"
    [ "$(head -n 1 "$room/said")" = "potmeander: $text" ] || fail "not '$text' but: $(cat "$room/said")"
}
trouble "the device's log cannot be opened: $room/nowhere" compare "$room/nowhere" "$log"
trouble "the model's log cannot be opened: $room/nowhere" compare "$log" "$room/nowhere"
trouble "a folder is no log: $room" compare "$log" "$room"
trouble "the device's log could not be read to its end" compare - "$log" <"$room"
trouble "the model's log could not be read to its end" compare "$log" - <&-
for call in 'compare' "compare $log" "compare $log $log $log" 'show x' 'shows' 'compare - -: standard input is one log'; do
    trouble "not a call: $call" ${call%%:*} </dev/null
    grep -q '^  ./potmeander compare DEVICE MODEL ' "$room/said" || fail "no usage: $(cat "$room/said")"
done
status=0
"$potmeander" compare "$log" "$log" >&- 2>"$room/said" || status=$?
is 2 'standard output closed'
if [ -w /dev/full ]; then
    status=0
    "$potmeander" compare "$log" "$log" >/dev/full 2>"$room/said" || status=$?
    is 2 'standard output full'
    [ "$(cat "$room/said")" = 'potmeander: what was found could not be written' ] || fail "standard output full: $(cat "$room/said")"
fi

# ---- show
# shows STATUS TEXT: $room/input as text, and what is said of it
shows() {
    c_run "$built/laid" show <"$room/input" >"$room/want"
    call show <"$room/input"
    is "$1" "$2"
    cmp "$room/want" "$room/out" || fail "show, $2: $(tail -n 3 "$room/out")"
    [ "$(cat "$room/said")" = "potmeander: $2" ] || fail "show: not '$2' but '$(cat "$room/said")'"
}
for name in full.session full.log; do
    cp "examples/$name" "$room/input"
    case $name in *.log) shows 0 '3 records, 28 bytes shown' ;; *) shows 0 '6 records, 32 bytes shown' ;; esac
    cmp "examples/$name.text" "$room/out"
done
cp examples/hour.session "$room/input"
shows 0 '173 records, 938 bytes shown'
# the three marks that declare; and declarations whose fields are not judged
cp examples/texts.session "$room/input"
shows 0 '26 records, 156 bytes shown'
grep -qx 'byte        5  tick       0   0:00:00.00  LO  instance 1  type 4  resolution 10' "$room/out" || fail "show, LO: $(head -n 2 "$room/out")"
cp examples/infrared.session "$room/input"
shows 0 '113 records, 602 bytes shown'
grep -qx 'byte        5  tick       0   0:00:00.00  IM  instance 1  type 3  resolution 2' "$room/out" || fail "show, IM: $(head -n 2 "$room/out")"
# a colour: blue, green and red, as one number
cp examples/colour.session "$room/input"
shows 0 '148 records, 765 bytes shown'
grep -qx 'byte        0  tick       0   0:00:00.00  IN  instance 0  type 5  resolution 24' "$room/out" || fail "show, colour: $(head -n 1 "$room/out")"
grep -qx "byte      113  tick    4200   0:03:30.00  SA  instance 0  status 0  value $((120 * 65536 + 110 * 256 + 70))" "$room/out" ||
    fail "show, a colour: $(grep '^byte      113' "$room/out")"
for other in lo im colour; do
    cp "examples/refused_4_$other.session" "$room/input"
    shows 0 '1 record, 5 bytes shown'
done
unknown='1, mark unknown' cut='2, fewer bytes remain than the mark, or the record, needs'
cp examples/refused_1.session "$room/input"
shows 1 "1 record, 5 bytes shown; record refused at byte 5: $unknown"
cp examples/refused_2.session "$room/input"
shows 1 "1 record, 5 bytes shown; record refused at byte 5: $cut"
cat examples/full.log examples/full.session >"$room/input"
shows 1 "3 records, 28 bytes shown; record refused at byte 28: $unknown"
cat examples/full.session examples/full.log >"$room/input"
shows 1 "6 records, 32 bytes shown; record refused at byte 32: $unknown"
head -c 27 examples/full.log >"$room/input"
shows 1 "2 records, 20 bytes shown; record refused at byte 20: $cut"
printf 'IN 0 4 8\n' >"$room/input"
shows 1 "1 record, 5 bytes shown; record refused at byte 5: $unknown"
printf 'E' >"$room/input"
shows 1 "0 records, 0 bytes shown; record refused at byte 0: $cut"
printf 'AB' >"$room/input"
shows 1 "0 records, 0 bytes shown; record refused at byte 0: $unknown"
: >"$room/input"
shows 0 '0 records, 0 bytes shown'
cp "$room/whole" "$room/input"
shows 0 "$((19 * 4096)) records, $long bytes shown"
head -c $((long - 3)) "$room/whole" >"$room/input"
shows 1 "$((19 * 4096 - 1)) records, $((long - 8)) bytes shown; record refused at byte $((long - 8)): $cut"
c_run "$built/feeder" 9 <examples/hour.session | { call show && echo "$status" >"$room/status"; }
c_run "$built/laid" show <examples/hour.session | cmp - "$room/out"
[ "$(cat "$room/status")" -eq 0 ] || fail "show, in pieces: $(cat "$room/said")"

# ---- inputs and outputs that fail
# fails TEXT
fails() {
    is 3 "$1"
    [ "$(cat "$room/said")" = "potmeander: $1" ] || fail "show: not '$1' but '$(cat "$room/said")'"
}
unread='0 records, 0 bytes shown; reading the input failed after 0 bytes'
call show <&-
fails "$unread"
call show <"$room"
fails "$unread"
unwritten='0 records, 0 bytes shown; writing the text failed, and the rest is not shown'
status=0
"$potmeander" show <examples/full.log >&- 2>"$room/said" || status=$?
fails "$unwritten"
status=0
{ "$potmeander" show <"$room/whole" 2>"$room/said" || echo $? >"$room/status"; } | head -n 1 >/dev/null
status=$(cat "$room/status")
is 3 'a reader that went away'

# ---- interrupts: nothing goes on
# interrupt TEXT
interrupt() {
    sleep 1
    kill -s TERM "$launcher"
    status=0
    wait "$launcher" 2>/dev/null || status=$?
    is 143 "$1"
    grep -q "^potmeander: $1" "$room/said" || fail "interrupted: $(cat "$room/said")"
    ! grep -lq "$clone/build/" /proc/[0-9]*/cmdline 2>/dev/null || fail 'the program goes on'
}
exec 8<>"$room/fifo"
cat examples/full.log >&8
setsid "$potmeander" compare "$log" "$room/fifo" >"$room/out" 2>"$room/said" &
launcher=$!
interrupt 'interrupted; nothing is said of the two logs$'
[ ! -s "$room/out" ] || fail "an interrupted comparison wrote $(cat "$room/out")"
setsid "$potmeander" show <"$room/fifo" >"$room/out" 2>"$room/said" &
launcher=$!
cat "$log" >&8
interrupt 'the input was not read to its end; .* bytes of text written; interrupted$'
exec 8>&-
echo "$count pairs, the example, and every outcome: compare and show as they must be"
