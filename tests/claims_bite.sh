#!/bin/sh
# Shows that claims.sh bites: on a scratch copy of the repository, with one thing made untrue at a time, it fails and says what.
set -eu
cd "$(dirname "$0")/.."
LC_ALL=C
export LC_ALL
scratch=$(mktemp -d)
trap 'rm -rf "$scratch"' EXIT
copy=$scratch/copy
. tests/lib/build.sh
. tests/lib/checked.sh
mkdir -p "$copy/target/log"
cp -R .ci docs README.md tests "$copy"
c_sources cp --parents -t "$copy" {} +
# what the checks have is as it is here, whatever is changed there
cp target/ci.log "$copy/target"
cp target/log/*.out target/log/*.exported "$copy/target/log"
: >"$copy/tests/lib/checked.sh"
# what `rt ci` said of a crate, where its verdict is an earlier one
cat >>"$copy/target/ci.log" <<'end'
== widen
logic=proved functions=6 sum=0 native=nat,char,string logic-built=trusted libraries-built=trusted statements=trusted
rt: widen proved
end
page=crates/demands/proofs/Unique.antt
ways=0

# told TEXT: the copy's claims.sh fails, and TEXT is in what it says
told() {
    status=0
    sh "$copy/tests/claims.sh" >"$scratch/out" 2>&1 || status=$?
    if [ "$status" -ne 1 ] || ! grep -qF "$1" "$scratch/out"; then
        echo "expected status 1 and '$1', got status $status and:" >&2
        cat "$scratch/out" >&2
        exit 1
    fi
    ways=$((ways + 1))
}

# edited FILE SCRIPT TEXT: told, where sed's script has changed the file
edited() {
    cp "$copy/$1" "$scratch/was"
    sed "$2" "$scratch/was" >"$copy/$1"
    ! cmp -s "$scratch/was" "$copy/$1" || { echo "$2 changes nothing in $1" >&2; exit 1; }
    told "$3"
    cp "$scratch/was" "$copy/$1"
}

# gone FILE TEXT: told, where the file or the folder is away
gone() {
    mv "$copy/$1" "$scratch/kept"
    told "$2"
    mv "$scratch/kept" "$copy/$1"
}

# more FILE TEXT: told, where there is such a file, empty
more() {
    mkdir -p "$(dirname "$copy/$1")"
    : >"$copy/$1"
    told "$2"
    rm "$copy/$1"
}

sh "$copy/tests/claims.sh" >/dev/null

# ---- crates, edits that must fail, tests
sed '/^trial:/d' crates.txt >"$copy/crates.txt"
gone crates/trial 'trial: in tests/claims.txt, and not in crates.txt'
cp crates.txt "$copy/crates.txt"
edited crates.txt '/^trial:/d' 'trial: in tests/claims.txt, and not in crates.txt'
gone crates/trial 'trial: in tests/claims.txt, and not under crates/'
more crates/more/note 'more: under crates/, and not in tests/claims.txt'
rmdir "$copy/crates/more"
gone crates/widen/must-fail 'crates/widen/must-fail: 0 edits, and tests/claims.txt says'
gone crates/widen/must-fail/a_bit_lost.edit 'crates/widen/must-fail: '
more crates/vector/must-fail/more.edit 'crates/vector/must-fail: 1 edits, and tests/claims.txt says 0'
rmdir "$copy/crates/vector/must-fail"
gone tests/compare.sh 'compare.sh: in tests/claims.txt, and not under tests/'
more tests/more.sh 'more.sh: under tests/, and not in tests/claims.txt'

# ---- verdicts
edited target/ci.log '/^rt: widen proved$/d; /^rt: widen is kept: /d' 'target/ci.log: nothing says that widen is proved'
edited target/ci.log 's/^rt: widen is kept: .*/rt: widen NOT PROVED/; s/^rt: widen proved$/rt: widen NOT PROVED/' \
    'target/ci.log: nothing says that widen is proved'
edited target/ci.log '/^== widen$/,/^rt:/ s/^logic=proved.*/& cache=trusted/' 'target/ci.log: the check says cache=trusted, of widen'
edited target/ci.log '/^== widen$/,/^rt:/ s/^logic=proved.*/& incremental=trusted/' 'target/ci.log: the check says incremental=trusted, of widen'
edited target/ci.log '/^== widen$/,/^rt:/ s/^logic=proved/& axioms=1/' 'target/ci.log: the check says axioms=1, of widen'
edited target/ci.log '/^rt: ok; / s/must-fail edits: [0-9]* refused/must-fail edits: 1 refused/' 'target/ci.log: 1 of the '
edited target/ci.log '/^rt: ok; / s/must-fail edits: [0-9]* refused[^;]*; //' 'target/ci.log: none of the '
gone target/ci.log 'target/ci.log: nothing says that widen is proved'

# ---- assumptions
vector=$(awk '/^  [^ ]* *reached$/ { names = names " " $1 } /^logic=/ { sub(/.* axioms=/, ""); sub(/ .*/, ""); print $0 names }' target/log/vector.out)
more=$(awk '!/reached$/ && /^  libc::/ { print $1; exit }' target/log/vector.out)
edited target/log/vector.out "/^  $more\$/ s/\$/   reached/; s/ axioms=[0-9]* / axioms=99 /" "vector 99 "
edited target/log/vector.out "s/^  libc::write  *reached/  libc::getpid   reached/" 'libc::getpid'
edited docs/TRUST.md '/^| `vector`/d' "vector $vector: assumed by its check, and not in docs/TRUST.md, 3"
edited docs/TRUST.md '/^| `vector`/ s/`libc::write`/`libc::getpid`/' 'libc::getpid'
edited crates.txt 's/^widen:/widen: libc/' 'the library widen names libc'
edited crates.txt 's/^hours_c staticlib:/hours_c staticlib: libc/' 'the library hours_c names libc'
edited target/log/vector.out 's/^logic=proved.*/& cache=trusted/' 'target/log/vector.out: the check says cache=trusted'
edited target/log/vector.out '/^logic=proved/d' "target/log/vector.out: no line 'logic=proved ..'"
gone target/log/vector.out "target/log/vector.out: no line 'logic=proved ..'"
edited target/log/hours_c.out 's/^logic=proved/& axioms=1/; s/^axioms libc: .*/&\
  libc::write   reached/' 'hours_c 1 libc::write: assumed by its check, and not in docs/TRUST.md, 3'

# ---- promises
widen=crates/widen/src/lib.rt timers=crates/timers/src/lib.rt
edited $widen '/^pub fn mask/,/^{/ { /ensures/d; }' 'widen::mask: exported, and has no `ensures`'
edited $widen '/^pub fn mask/,/^{/ s/^    ensures/    requires { resolution < 9 }\
&/' 'widen::mask: exported, and has a `requires`'
edited $timers '/pub fn dead_time/,/^    {/ s/^        ensures/        requires small { self.report < 9 }\
&/' 'timers::Rules::dead_time: exported, and has a `requires`'
edited $timers '/pub fn dead_time/,/^    {/ { /ensures/d; }' 'timers::Rules::dead_time: exported, and has no `ensures`'
edited $widen 's/^pub fn mask/fn mask/' 'widen::mask: exported, and found in 0 places of the sources'
edited crates/device/src/pairs.rt 's/^#\[derive(Clone, Copy, PartialEq, Eq)\]/#[derive(Clone, Copy)]/' \
    'device::pairs::FramePartialEq::eq: exported, and found in 0 places of the sources'
edited crates/device/src/pairs.rt 's/^#\[derive(Clone, Copy, PartialEq, Eq)\]/&\
struct Inner;\
\
#[derive(Clone, Copy)]/' 'device::pairs::FramePartialEq::eq: exported, and found in 0 places of the sources'
edited crates/hours/src/records.rt 's/^pub(crate) struct/pub struct/' 'hours::records::RecordsIterator::next: exported, and found in 0 places of the sources'
# nor where another file has an inner type of that name
cp "$copy/crates/hours/src/table.rt" "$scratch/table.rt"
printf '\nstruct Records;\n' >>"$copy/crates/hours/src/table.rt"
edited crates/hours/src/records.rt 's/^pub(crate) struct/pub struct/' 'hours::records::RecordsIterator::next: exported, and found in 0 places of the sources'
cp "$scratch/table.rt" "$copy/crates/hours/src/table.rt"
edited $widen 's/^    ensures/  ensures/' 'a source is not in the layout'

# ---- archives
hours=crates/hours_c/src/lib.rt
edited $hours 's/tally_of log.now/tally_of events.now/' 'hours_c::potmeander_hours: not the parameters, the result and the clauses of hours::potmeander_hours'
edited $hours '/fn potmeander_hour(/,/^{/ { /ensures/d; }' 'hours_c::potmeander_hour: not the parameters'
edited $hours '/fn potmeander_hour(/ s/hour: u64/hour: u32/' 'hours_c::potmeander_hour: not the parameters'
edited $hours 's/fn potmeander_hour(/fn potmeander_part(/' 'hours_c::potmeander_part: hours exports no such function'
edited $hours 's/extern "C" fn potmeander_hour(/fn potmeander_hour(/' 'hours_c::potmeander_hour: no export, in an archive'
edited crates/hours/src/parts.rt 's/^pub fn potmeander_hour(/pub extern "C" fn potmeander_hour(/' 'hours::potmeander_hour: an export, in a library'

# ---- Unique
# brings FUNCTION: the name by which crate widen's Unique brings it
brings() { sed -n "s/^use Rattle[.]widen[.]proofs[.]$1[.]Reads as //p" crates/widen/proofs/Unique.antt; }
unique=crates/widen/proofs/Unique.antt record=crates/record/proofs/Unique.antt command=crates/command/proofs/Unique.antt
compare=crates/compare/proofs/Unique.antt
edited $unique '/^pub mask_unique/d' 'Unique: no entry for widen::mask'
edited $unique "/^pub mask_unique/ s/mask[.]Post/$(brings input_bytes).Post/" 'Unique: no entry for widen::mask'
edited $unique '/^use .*mask[.]Reads/ s/proofs[.]mask/proofs.input_bytes/' 'Unique: 2 entries for widen::input_bytes'
edited $unique '/^use .*mask[.]Reads/ s/proofs[.]mask/proofs.bits/' 'Unique of widen: mask_unique is of no exported function: widen::bits'
edited $unique '/^use .*specs[.]Unique/ s/promise/widen/' "Unique of widen: mask_unique says a Unique that is not crate promise's"
edited $record '/^pub Entry-write_unique/ s/ : UniqueLent\(.*[.]Post\).*/ : Unique\1/' \
    'Unique of record: Entry-write_unique does not speak of all that is lent'
edited $compare '/^pub rest_unique/d' 'Unique: no entry for compare::rest'
edited $command '/^pub apply_unique/d' 'Unique: no entry for command::apply'
edited $command '/^pub apply_unique/ s/apply[.]ended/another.ended/' 'Unique of command: apply_unique is of no exported function'
edited crates/device/proofs/Unique.antt '/^pub Frame-eq_unique/d' 'Unique: no entry for device::pairs::FramePartialEq::eq'
edited $record '/^use .*word[.]Reads/ s/Rattle.*word[.]/Rattle.widen.proofs.mask./' "Unique of record: word_unique is of another crate's function: widen::mask"
gone $unique 'Unique: no entry for widen::mask'
edited $page '/^pub use .*widen/d' "widen: with functions that it exports, and not gathered by $page"
edited $page '/^pub use .*widen/ s/widen/promise/g' "promise: gathered by $page, and not with functions that it exports"
echo "claims.sh fails where it must, in $ways ways"
