#!/bin/sh
# What a tick, and one widening by itself, cost in the proved library and in the plain C implementation built at -O3 for the same
# processor, side by side; and what the hour table adds to a session.
#   bench/run.sh [whole]
# On x86-64 it is time, in nanoseconds a tick; elsewhere instructions a tick, counted under the kit's emulator. A cost is the difference of
# two runs that differ in their number of ticks, or of widenings, alone. The long runs are timed; elsewhere, with `whole`, their
# instructions are counted, which takes half an hour.
set -eu
cd "$(dirname "$0")/.."
. tests/lib/build.sh
c_library session
c_library tabled
c_object "$built/second3.o" tests/second/second.c -O3
c_object "$built/cost.o" bench/cost.c -Itests -O3
c_program "$built/cost" "$built/cost.o" "$built/second3.o" target/staticlib/libsession.a target/staticlib/libtabled.a

# Of the library C can call a session and no widening by itself: for that a repository of crate widen and of one that exports it. It lies outside of this
# one, whose gate refuses such files.
alone=$(mktemp -d)
trap 'rm -rf "$alone"' EXIT
trap 'exit 1' INT TERM HUP
c_sources cp --parents -t "$alone" {} +
mkdir -p "$alone/crates/alone_c/src"
printf 'promise:\nwiden: promise\nalone_c staticlib: widen promise\n' >"$alone/crates.txt"
cat >"$alone/crates/alone_c/src/lib.rt" <<'end'
#![tactic(auto)]

ghost use Rattle.std.specs.Prelude.{min, ◌≡◌};
ghost use Rattle.widen.specs.Width.{widened};

#[unsafe(no_mangle)]
pub extern "C" fn library_widened(value: u32, resolution: u8, wide: u8) -> u32
    ensures { result ≡ widened value resolution (min wide 32) }
{
    widen::widened(value, resolution, wide)
}
end
archiving=$PWD/.ci/archive
(cd "$alone" && "$archiving" alone)
c_object "$built/widening.o" bench/widening.c -Itests -O3
c_program "$built/widening" "$built/widening.o" "$alone/target/staticlib/libalone.a"

now() { date +%s%N; }

# Nanoseconds of a run of PROGRAM ARGUMENT..., the least of three: the machine may have other work.
timed() {
    least=
    for _ in 1 2 3; do
        start=$(now)
        c_run "$@" >/dev/null
        took=$(($(now) - start))
        [ -n "$least" ] && [ "$least" -le "$took" ] || least=$took
    done
    echo "$least"
}

# Instructions of a run. The emulator tells of each block of instructions when it translates it, and traces each time that it runs one.
counted() {
    fifo=$built/trace.$$
    mkfifo "$fifo"
    awk -F/ '
        /^Trace/ { sum += size[$2] }
        /^OP:/ { begins = 1 }
        /^ ----/ { split($0, word, " "); if (begins) { block = word[2]; size[block] = 0; begins = 0 } size[block]++ }
        END { printf "%.0f\n", sum }' "$fifo" >"$fifo.count" &
    "$c_tools/bin/qemu-x86_64" -d op,exec,nochain -D "$fifo" \
        "$c_tools/lib/ld-linux-x86-64.so.2" --library-path "$c_tools/lib" "$@" >/dev/null
    wait
    cat "$fifo.count"
    rm -f "$fifo" "$fifo.count"
}

if [ "$c_machine" = x86_64 ]; then
    measure=timed times=1000 unit='ns a tick' whole=
else
    measure=counted times=1 unit='instructions a tick' whole=${1:-}
fi

# each FEWER PROGRAM ARGUMENT...: the cost of one turn, by runs of FEWER turns and of six times as many
each() {
    fewer=$(($1 * times)) more=$(($1 * 6 * times))
    shift
    a=$($measure "$@" "$fewer")
    b=$($measure "$@" "$more")
    awk "BEGIN { printf \"%.1f\", ($b - $a) / ($more - $fewer) }"
}

# per_tick WHICH INSTANCES LOAD: over whole report periods of 600 ticks, but where every tick is like the last
per_tick() {
    case $3 in
    busy) each 20 "$built/cost" "$@" ;;
    *) each 600 "$built/cost" "$@" ;;
    esac
}

# row NAME FIRST SECOND; and of a long run: long NAME MEASURE UNIT HOURS LOAD
row() {
    printf '%-48s %12s %12s %7s\n' "$1" "$2" "$3" "$(awk "BEGIN { printf \"%.2f\", $2 / $3 }")"
}
long() {
    first=$($2 "$built/cost" first 16 "$5" $(($4 * 72000)))
    second=$($2 "$built/cost" second 16 "$5" $(($4 * 72000)))
    row "$4 hours of 16, $5: $1 in all" $((first / $3)) $((second / $3))
}

printf '%-48s %12s %12s %7s\n' "$unit" library 'plain C' ratio
for load in quiet sampled busy; do
    for instances in 1 4 16; do
        row "$instances instances, $load" "$(per_tick first $instances $load)" "$(per_tick second $instances $load)"
    done
done
row 'one widening, 9 bits to 16' "$(each 5000 "$built/widening" first)" "$(each 5000 "$built/widening" second)"
for hours in 8 48; do
    long ms timed 1000000 "$hours" quiet
    [ -z "$whole" ] || long 'thousand instructions' counted 1000 "$hours" quiet
done
# Occupancy of either make (M-100): the same events at the same ticks, by a hold timer and by samples. Colour (M-104): samples, and reports between.
for load in presence movement colour; do
    long us timed 1000 48 "$load"
    [ -z "$whole" ] || long 'thousand instructions' counted 1000 48 "$load"
done

# The hour table: a long run with it, and the same without.
printf '\n%-48s %12s %12s %7s\n' 'us in all' 'with table' library ratio
for load in quiet sampled; do
    with=$(timed "$built/cost" table 16 "$load" 3456000)
    without=$(timed "$built/cost" first 16 "$load" 3456000)
    row "48 hours of 16, $load" $((with / 1000)) $((without / 1000))
done
