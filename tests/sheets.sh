#!/bin/sh
# Runs ./potmeander --sheets, hours and hour: each sheet against lib/sheets.awk, a second printer, from the same log; widths, lines and form feeds; labels that
# move nothing; hours that are put together again; logs and sessions that are refused; calls, inputs and outputs that fail; nothing left behind.
set -eu
cd "$(dirname "$0")/.."
. tests/lib/build.sh
c_programs
. tests/lib/clone.sh
. examples/records.sh
kit_with "$(into_place target/bin/potmeander)"
export RATTLE_HOME="$kit" TMPDIR="$room/tmp" LC_ALL=C
mkdir "$TMPDIR"
potmeander=$clone/potmeander
"$potmeander" show </dev/null 2>/dev/null || fail "it is not built: status $?"

# call WORD...: a call of the launcher on $room/input, what it writes in $room/out and says in $room/said, and its status
call() {
    status=0
    "$potmeander" "$@" <"$room/input" >"$room/out" 2>"$room/said" || status=$?
}

# is STATUS TEXT: the status, and the whole of what was said
is() {
    [ "$status" -eq "$1" ] || fail "'$2': status $status and not $1: $(cat "$room/said")"
    [ "$(cat "$room/said")" = "potmeander: $2" ] || fail "not '$2' but '$(cat "$room/said")'"
}

# printed FILE INSTANCES HOURS [-v NAME=VALUE]...: FILE has the sheets of the log in $room/log, and any printer takes them
printed() {
    file=$1 instances=$2 hours=$3
    shift 3
    od -A n -v -t u1 "$room/log" | awk -v instances="$instances" -v hours="$hours" "$@" -f tests/lib/sheets.awk >"$room/want"
    cmp "$room/want" "$file" || fail "other sheets: $(diff "$room/want" "$file" | head -n 6)"
    awk -v sheets="$instances" 'BEGIN { RS = "\f" }
        { lines = split($0, line, "\n") - 1; for (i in line) if (length(line[i]) > 80 || line[i] ~ /[^ -~]| $/) exit 1 }
        lines > 60 || NF == 0 { exit 1 }
        END { exit NR != sheets }' "$file" || fail "not $instances sheets of 80 columns and 60 lines"
}

# sheets INSTANCES HOURS: of the log in $room/log, with no word to spare
sheets() {
    cp "$room/log" "$room/input"
    call hours "$1" "$2"
    is 0 "$(wc -c <"$room/log" | tr -d ' ') bytes read; $(many "$1" sheet) of $(many "$2" hour) printed"
    printed "$room/out" "$1" "$2"
}
many() { if [ "$1" -eq 1 ]; then echo "1 $2"; else echo "$1 $2s"; fi; }

# Records of a log by hand: EV TICK INSTANCE, AN TICK INSTANCE
tick() { record_bytes $(($1 / 16777216)) $(($1 / 65536 % 256)) $(($1 / 256 % 256)) $(($1 % 256)); }
EV() { printf EV && tick "$1" && record_bytes "$2" 4 1 145; }
AN() { printf AN && tick "$1" && record_bytes "$2" 94; }
both_ends() {
    AN 0 0
    for k in $(seq 0 47); do
        for i in $(seq 0 15); do [ $((k % (i + 1))) -ne 0 ] || EV $((72000 * k + 1)) "$i"; done
        AN $((72000 * k + 5)) 3
        for i in $(seq 0 15); do [ $(((k + i) % 5)) -ne 0 ] || EV $((72000 * (k + 1))) "$i"; done
    done
}

# ---- a sheet for each instance of a log, row by row
both_ends >"$room/log"
sheets 16 48
cp "$room/log" "$room/ends.log"
cp "$room/out" "$room/ends.sheets"
[ "$(grep -c '  EMPTY' "$room/out")" -gt 100 ] || fail 'no empty hours'
events=$(sed -n 's/^total *//p' "$room/out" | awk '{ n += $1 } END { print n }')
[ "$events" -eq "$("$potmeander" show <"$room/log" 2>/dev/null | grep -c '  EV  ')" ] || fail "the totals come to $events"
cp examples/hour.log "$room/log"
sheets 2 1
sheets 16 48
(EV 1 0 && EV 3456000 0) >"$room/log"
sheets 1 48
grep -q '^  47    3384001  3456000           1     3455999  172799.95$' "$room/out" || fail 'the longest gap'
: >"$room/input" && : >"$room/log"
sheets 1 1
EV 72001 0 >"$room/log"
sheets 1 2

# ---- labels: the rest of each row is what it was, over midnight, and with daylight of either sign
cp "$room/ends.log" "$room/input" && cp "$room/ends.log" "$room/log"
for label in '23:30 0' '08:05 60' '08:05 -60' '00:00 -1' '23:59 1439' '00:10 -1439'; do
    minutes=${label#* } start=${label% *}
    call hours 16 48 --clock "$start" --daylight "$minutes"
    [ "$status" -eq 0 ] || fail "labels $label: $(cat "$room/said")"
    clock=$(echo "$start $minutes" | awk -F '[: ]' '{ print ($1 * 60 + $2 + $3 + 2880) % 1440 }')
    printed "$room/out" 16 48 -v clock="$clock"
    sed 's/^[0-9][0-9]:[0-9][0-9]  //; s/^clock  //; s/^       \( *longest\)/\1/' "$room/out" | cmp - "$room/ends.sheets" || fail "labels $label move something"
done
call hours 16 48 --clock 23:30
printed "$room/out" 16 48 -v clock=1410

# ---- hours that are put together again are the log, without what came before the first tick
: >"$room/together"
for k in $(seq 0 47); do
    call hour "$k"
    [ "$status" -eq 0 ] || fail "hour $k: $(cat "$room/said")"
    cat "$room/out" >>"$room/together"
done
tail -c +9 "$room/ends.log" | cmp - "$room/together" || fail 'the hours are not the log'
size=$(wc -c <"$room/ends.log" | tr -d ' ')
call hour 47
is 0 "hour 47, from byte $((size - $(wc -c <"$room/out"))) of $size bytes on: $(wc -c <"$room/out" | tr -d ' ') bytes written"
(EV 72000 0 && EV 144001 0) >"$room/input"
call hour 1
is 0 'hour 1, from byte 10 of 20 bytes on: 0 bytes written'
[ ! -s "$room/out" ] || fail 'an empty hour has bytes'
(EV 1 0 && EV 3456001 0) >"$room/input"
call hour 47
is 0 'hour 47, from byte 10 of 20 bytes on: 0 bytes written'
# far longer than the buffer: the part of an hour, by the first and the last of its records
for k in 0 1 2; do for _ in $(seq 700); do EV $((72000 * k + 9)) 0; done; done >"$room/piece"
cat "$room/piece" >"$room/log"
(head -c 7000 "$room/piece" && for _ in 1 2 3 4 5 6 7 8 9 10 11 12; do tail -c +7001 "$room/piece" | head -c 7000; done && tail -c 7000 "$room/piece") >"$room/input"
call hour 1
is 0 'hour 1, from byte 7000 of 98000 bytes on: 84000 bytes written'
tail -c +7001 "$room/input" | head -c 84000 | cmp - "$room/out" || fail 'another part'

# ---- what is refused: nothing is printed or written, and it is said where and why
# refused TEXT: by hours and by hour
refused() {
    call hours 16 48
    is 1 "no sheet printed; record refused at byte $1"
    [ ! -s "$room/out" ] || fail "sheets of a refused log: $1"
    call hour 0
    is 1 "nothing written; record refused at byte $1"
    [ ! -s "$room/out" ] || fail "an hour of a refused log: $1"
}
unknown='1, mark unknown' cut='2, fewer bytes remain than the mark, or the record, needs' falls='16, tick below that of the record before'
(EV 5 0 && AN 4 0 && printf 'XXX') >"$room/input"
refused "18: $unknown"
(EV 5 0 && AN 4 0 && printf 'E') >"$room/input"
refused "18: $cut"
(EV 5 0 && EV 4 0 && EV 3 0 && EV 3456001 0) >"$room/input"
refused "10: $falls"
cp examples/full.session "$room/input"
refused "0: $unknown"
cp examples/falls.log "$room/input"
refused "20: $falls"
(EV 1 0 && AN 3456001 0 && EV 3456002 0) >"$room/input"
call hours 1 48
is 1 'no sheet printed; record refused at byte 10: 10, tick above 3,456,000, the last of 48 hours'
for k in 48 999999999999999999999999; do
    call hour "$k"
    is 1 'nothing written; hour refused: 10, hours are 0 to 47'
done

# ---- events that the sheets asked for leave out
# left_out TEXT INSTANCES HOURS
left_out() {
    call hours "$2" "$3"
    is 1 "no sheet printed; event left out at byte $1; asked for were $(many "$2" instance) and $(many "$3" hour)"
    [ ! -s "$room/out" ] || fail "sheets that leave out: $1"
}
(EV 1 0 && AN 144005 9 && EV 144005 1 && EV 144005 2) >"$room/input"
left_out '18: instance 1, tick 144005, hour 2' 1 3
left_out '18: instance 1, tick 144005, hour 2' 3 2
left_out '28: instance 2, tick 144005, hour 2' 2 3
(EV 0 0 && EV 1 16) >"$room/input"
left_out '0: instance 0, tick 0, which is in no hour' 16 48
EV 72000 16 >"$room/input"
left_out '0: instance 16, tick 72000, hour 0' 16 48

# ---- a session: its log is the same, and its sheets have the types, and the hours up to the one that it reached
# session STATUS TEXT SHEETS [LABEL]...: --sheets of the session in $room/input, the log in $room/log
session() {
    want=$1 text=$2 printed=$3
    shift 3
    status=0
    "$potmeander" --sheets "$room/sheets" "$@" <"$room/input" >"$room/log" 2>"$room/said" || status=$?
    is "$want" "$text
potmeander: $(many "$(wc -c <"$room/log" | tr -d ' ')" byte) read; $printed printed"
}
"$potmeander" <examples/morning.session >"$room/plain" 2>/dev/null
cp examples/morning.session "$room/input"
types='occupancy;light, resolution 10;light, resolution 8'
session 0 '45 records, 247 bytes read; 396000 ticks; 2238 bytes logged' '3 sheets of 6 hours'
cmp "$room/plain" "$room/log"
printed "$room/sheets" 3 6 -v of='a session' -v reached=396000 -v types="$types"
cmp examples/morning.sheets "$room/sheets"
session 0 '45 records, 247 bytes read; 396000 ticks; 2238 bytes logged' '3 sheets of 6 hours' --clock 22:15 --daylight -30
printed "$room/sheets" 3 6 -v of='a session' -v reached=396000 -v types="$types" -v clock=1305
cp "$room/log" "$room/input"
call hours 3 6
sed '/^of  /d; /^instance  /d; /^reached  /d' "$room/out" >"$room/rows"
sed '/^of  /d; /^instance  /d; /^reached  /d' examples/morning.sheets | cmp - "$room/rows" || fail 'a session and its log have other rows'
call hour 2
cmp examples/morning.hour_2.log "$room/out"
# a log far longer than the buffer
{
    for i in 0 1 2 3; do IN $i 4 8; done
    FR C1 30 01
    for i in 0 1 2 3; do FR 01 $i 30 && FR 01 $i 30 && SA $i 0 100; done
    TK 150000
    SA 2 2 0
    TK 66000
} >"$room/input"
session 0 '23 records, 120 bytes read; 216000 ticks; 266000 bytes logged' '4 sheets of 3 hours'
light='light, resolution 8'
printed "$room/sheets" 4 3 -v of='a session' -v reached=216000 -v types="$light;$light;$light;$light"
# light of either text; all sixteen places, the last by LO
cp examples/texts.session "$room/input"
session 0 '26 records, 156 bytes read; 240 ticks; 130 bytes logged' '4 sheets of 1 hour'
printed "$room/sheets" 4 1 -v of='a session' -v reached=240 \
    -v types='light, resolution 10;light of the 2017 text, resolution 10;light, resolution 8;light of the 2017 text, resolution 8'
types=
for i in 0 3 6 9 12; do
    IN $i 3 2
    IN $((i + 1)) 4 $((i + 9))
    LO $((i + 2)) 4 $((i + 10))
    types="${types}occupancy;light, resolution $((i + 9));light of the 2017 text, resolution $((i + 10));"
done >"$room/input"
LO 15 4 1 >>"$room/input"
session 0 '16 records, 80 bytes read; 0 ticks; 0 bytes logged' '16 sheets of 1 hour'
printed "$room/sheets" 16 1 -v of='a session' -v reached=0 -v types="${types}light of the 2017 text, resolution 1"
# occupancy of either make; all sixteen places by all three marks, the last by IM
cp examples/infrared.session "$room/input"
session 0 '113 records, 602 bytes read; 72000 ticks; 468 bytes logged' '3 sheets of 1 hour'
printed "$room/sheets" 3 1 -v of='a session' -v reached=72000 -v types='movement-based occupancy;movement-based occupancy;occupancy'
types=
for i in 0 4 8 12; do
    LO $i 4 $((i + 9))
    IN $((i + 1)) 3 2
    IN $((i + 2)) 4 $((i + 10))
    IM $((i + 3)) 3 2
    types="${types}light of the 2017 text, resolution $((i + 9));occupancy;light, resolution $((i + 10));movement-based occupancy;"
done >"$room/input"
session 0 '16 records, 80 bytes read; 0 ticks; 0 bytes logged' '16 sheets of 1 hour'
printed "$room/sheets" 16 1 -v of='a session' -v reached=0 -v types="${types%;}"
# colour; all sixteen places by all that may be declared, the last colour
cp examples/colour.session "$room/input"
session 0 '148 records, 765 bytes read; 36000 ticks; 630 bytes logged' '2 sheets of 1 hour'
printed "$room/sheets" 2 1 -v of='a session' -v reached=36000 -v types='colour, resolution 24;light, resolution 8'
types=
for i in 0 5 10; do
    IM $i 3 2
    IN $((i + 1)) 5 24
    IN $((i + 2)) 4 $((i + 9))
    IN $((i + 3)) 3 2
    LO $((i + 4)) 4 $((i + 10))
    types="${types}movement-based occupancy;colour, resolution 24;light, resolution $((i + 9));occupancy;light of the 2017 text, resolution $((i + 10));"
done >"$room/input"
IN 15 5 24 >>"$room/input"
session 0 '16 records, 80 bytes read; 0 ticks; 0 bytes logged' '16 sheets of 1 hour'
printed "$room/sheets" 16 1 -v of='a session' -v reached=0 -v types="${types}colour, resolution 24"
# nothing declared; no tick; the last tick of the table, and one more
: >"$room/input"
call --sheets "$room/sheets"
is 0 '0 records, 0 bytes read; 0 ticks; 0 bytes logged
potmeander: no sheet printed: no instance is declared'
[ ! -s "$room/sheets" ] || fail 'a sheet of nobody'
IN 0 3 2 >"$room/input"
session 0 '1 record, 5 bytes read; 0 ticks; 0 bytes logged' '1 sheet of 1 hour'
printed "$room/sheets" 1 1 -v of='a session' -v reached=0 -v types=occupancy
{ IN 0 4 8 && SA 0 0 1 && TK 3456000; } >"$room/input"
session 0 '55 records, 224 bytes read; 3456000 ticks; 57600 bytes logged' '1 sheet of 48 hours'
printed "$room/sheets" 1 48 -v of='a session' -v reached=3456000 -v types="$light"
TK 1 >>"$room/input"
session 1 '55 records, 224 bytes read; 3456000 ticks; 57600 bytes logged; record refused at byte 224: 10, tick number would pass 3,456,000, the last of the hour table' '1 sheet of 48 hours'
printed "$room/sheets" 1 48 -v of='a session, refused at byte 224: 10' -v reached=3456000 -v types="$light"
cp examples/beyond.session "$room/input"
session 1 '59 records, 244 bytes read; 3456000 ticks; 6788 bytes logged; record refused at byte 244: 10, tick number would pass 3,456,000, the last of the hour table' '1 sheet of 48 hours'
cmp examples/beyond.sheets "$room/sheets"
cp examples/refused_7.session "$room/input"
session 1 '3 records, 16 bytes read; 1 tick; 10 bytes logged; record refused at byte 16: 7, TK count 0' '1 sheet of 1 hour'
printed "$room/sheets" 1 1 -v of='a session, refused at byte 16: 7' -v reached=1 -v types="$light"
cp examples/refused_2.session "$room/input"
session 1 "1 record, 5 bytes read; 0 ticks; 0 bytes logged; record refused at byte 5: $cut" '1 sheet of 1 hour'
printed "$room/sheets" 1 1 -v of='a session, refused at byte 5: 2' -v reached=0 -v types="$light"
# sheets that cannot be written, before and after; a log that cannot, which the sheets say
cp examples/full.session "$room/input"
call --sheets "$room/nowhere/sheets"
is 2 "the sheets cannot be written to $room/nowhere/sheets"
call --sheets "$room"
is 2 "the sheets cannot be written to $room"
[ ! -s "$room/out" ] || fail 'a session was read'
full='6 records, 32 bytes read; 41 ticks'
if [ -w /dev/full ]; then
    call --sheets /dev/full
    is 3 "$full; 28 bytes logged
potmeander: 28 bytes read; writing the sheets failed"
    cmp examples/full.log "$room/out"
fi
status=0 && "$potmeander" --sheets "$room/sheets" <examples/full.session >&- 2>"$room/said" || status=$?
is 3 "$full; 28 bytes logged
potmeander: writing the log failed: it is not whole
potmeander: 28 bytes read; 1 sheet of 1 hour printed"
cp examples/full.log "$room/log"
printed "$room/sheets" 1 1 -v of='a session whose log could not be written whole' -v reached=41 -v types="$light"
call --sheets "$room/sheets" --clock 25:00
[ "$status" -eq 2 ] && [ -s "$room/sheets" ] || fail 'a wrong call emptied the sheets'

# ---- calls
for call in 'hours' 'hours 1' 'hours 0 1' 'hours 17 1' 'hours 1 0' 'hours 1 49' 'hours 1 x' 'hours 01 1' 'hours 1 1 --clock' 'hours 1 1 --clock 24:00' \
    'hours 1 1 --clock 8:00' 'hours 1 1 --daylight 60' 'hours 1 1 --clock 08:00 --daylight' 'hours 1 1 --clock 08:00 --daylight x' \
    'hours 1 1 --clock 08:00 --daylight 1440' 'hours 1 1 --clock 08:00 --daylight +60' 'hours 1 1 --daylight 60 --clock 08:00' \
    'hour' 'hour x' 'hour -1' 'hour 1 2' '--sheets' "--sheets $room/not --clock" "--sheets $room/not --daylight 60"; do
    call $call
    [ "$status" -eq 2 ] && [ "$(head -n 1 "$room/said")" = "potmeander: not a call: $call" ] || fail "$call: status $status: $(cat "$room/said")"
    [ ! -s "$room/out" ] && [ ! -e "$room/not" ] || fail "$call wrote something"
done
grep -q '^  ./potmeander hours INSTANCES HOURS ' "$room/said" || fail "no usage: $(cat "$room/said")"

# ---- inputs and outputs that fail
# fails TEXT WORD...: standard input is closed, or is a folder
fails() {
    text=$1
    shift
    status=0 && "$potmeander" "$@" <&- >"$room/out" 2>"$room/said" || status=$?
    [ "$status" -eq 3 ] && grep -qx "potmeander: $text" "$room/said" || fail "$*, closed: status $status: $(cat "$room/said")"
    status=0 && "$potmeander" "$@" <"$room" >"$room/out" 2>"$room/said" || status=$?
    [ "$status" -eq 3 ] && grep -qx "potmeander: $text" "$room/said" || fail "$*, a folder: status $status: $(cat "$room/said")"
    [ ! -s "$room/out" ] || fail "$*: something is written"
}
fails 'no sheet printed; reading the log failed after 0 bytes' hours 1 1
fails 'nothing written; reading the log failed, or there is no room to keep it' hour 0

# unwritten TEXT WORD...: standard output is closed, or full
unwritten() {
    text=$1
    shift
    status=0 && "$potmeander" "$@" <"$room/ends.log" >&- 2>"$room/said" || status=$?
    is 3 "$text"
    [ -w /dev/full ] || return 0
    status=0 && "$potmeander" "$@" <"$room/ends.log" >/dev/full 2>"$room/said" || status=$?
    is 3 "$text"
}
unwritten "$size bytes read; writing the sheets failed" hours 16 48
unwritten 'hour 2; writing the part failed' hour 2

# ---- an interrupt while a log is kept for its hour
mkfifo "$room/fifo"
exec 8<>"$room/fifo"
cat "$room/ends.log" >&8
setsid "$potmeander" hour 0 <"$room/fifo" >"$room/out" 2>"$room/said" &
launcher=$!
sleep 1
kill -s TERM "$launcher"
status=0
wait "$launcher" 2>/dev/null || status=$?
is 143 'interrupted; nothing was written'
[ ! -s "$room/out" ] || fail 'an interrupted hour'
exec 8>&-
[ -z "$(ls "$TMPDIR")" ] || fail "left behind: $(ls "$TMPDIR")"
echo 'the sheets of logs and sessions, and the hours of a log: as they must be'
