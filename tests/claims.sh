#!/bin/sh
# Holds what the documents say of the repository as a whole, which no check of one crate shows: which crates, edits that must fail and
# tests there are (tests/claims.txt); what is assumed (docs/TRUST.md, 3); that each exported function has an `ensures`, no `requires`, and
# its entry in its crate's Unique, that crate demands gathers these, and that an archive's calls have the clauses of the functions that they
# are of. It reads the sources, what `rt ci` said, which .ci/run has kept in target/ci.log, and what lib/checked.sh has of each crate, and says all
# that is wrong.
set -eu
cd "$(dirname "$0")/.."
. tests/lib/build.sh
. tests/lib/checked.sh
LC_ALL=C
export LC_ALL
claims=tests/claims.txt
room=$(mktemp -d)
trap 'rm -rf "$room"' EXIT
: >"$room/wrong"
wrong() { echo "$*" >>"$room/wrong"; }

# claimed WORD: the names that have a line of that kind
claimed() { awk -v word="$1" '$1 == word { print $2 }' "$claims" | sort; }

# same CLAIM FACT: $room/claimed and $room/found have the same lines
same() {
    comm -23 "$room/claimed" "$room/found" | sed "s|\$|: $1, and not $2|" >>"$room/wrong"
    comm -13 "$room/claimed" "$room/found" | sed "s|\$|: $2, and not $1|" >>"$room/wrong"
}

# ---- the tests, and the gate that README names
claimed test >"$room/claimed"
for script in tests/*.sh; do echo "${script#tests/}"; done | sort >"$room/found"
same "in $claims" 'under tests/'
tests=$(wc -l <"$room/found")
grep -q '^    [.]ci/run  ' README.md && [ -x .ci/run ] || wrong 'README names .ci/run as the gate: one of the two is gone'

# ---- the crates, and their edits that must fail
claimed crate >"$room/claimed"
sed -n 's/#.*//; s/[ :].*//p' crates.txt | sort >"$room/found"
same "in $claims" 'in crates.txt'
for folder in crates/*; do echo "${folder#crates/}"; done | sort >"$room/found"
same "in $claims" 'under crates/'
cp "$room/found" "$room/crates"

edits=0
while read -r word name count rest; do
    [ "$word" = crate ] || continue
    here=0
    for edit in "crates/$name/must-fail"/*.edit; do
        [ ! -f "$edit" ] || here=$((here + 1))
    done
    [ "$here" = "$count" ] || wrong "crates/$name/must-fail: $here edits, and $claims says $count"
    edits=$((edits + here))
done <"$claims"

# as many as `rt ci` has tried and the prover has refused
cat target/ci.log >"$room/ci" 2>/dev/null || :
tried=$(sed -n 's/^rt: ok; .*; must-fail edits: \([0-9]*\) refused.*/\1/p' "$room/ci" | tail -n 1)
[ "${tried:-none}" = "$edits" ] || wrong "target/ci.log: ${tried:-none} of the $edits edits that must fail are refused; .ci/run tries them"

# ---- what each program and archive assumes, `CRATE COUNT FUNCTION..`: the table of docs/TRUST.md, 3, and what the check printed
awk -F '|' '/^## / { here = /^## 3[.] / } here && /^[|] *`/ { gsub(/[`, ]+/, " "); print $2 $3 $4 }' docs/TRUST.md |
    sed 's/^ *//; s/ *$//; s/  */ /g' | sort >"$room/claimed"
: >"$room/found"
: >"$room/libraries"
: >"$room/archives"
while read -r name; do
    if [ -f "crates/$name/src/lib.rt" ] && [ ! -f "crates/$name/src/main.rt" ]; then
        if grep -q "^$name  *staticlib" crates.txt; then echo "$name" >>"$room/archives"; else echo "$name" >>"$room/libraries"; fi
    fi
    # the verdict is that of `rt ci`: here what it said, or that it said it earlier, of the same files
    log=target/ci.log
    grep -q -e "^rt: $name proved\$" -e "^rt: $name is kept: " "$room/ci" || wrong "$log: nothing says that $name is proved; .ci/run checks every crate"
    library=0
    ! grep -qx "$name" "$room/libraries" || library=1
    awk -v file="$log" -v wrong="$room/wrong" -v section="== $name" -v library="$library" '
        /^== / { here = $0 == section || index($0, section ":") == 1 }
        here && /^logic=/ {
            for (i = 1; i <= NF; i++)
                if (library && $i ~ /^axioms=/ && $i != "axioms=0" ||
                    $i !~ /^(tests|functions|axioms|target|cpu|sum|native)=/ && $i !~ /^(logic=proved|(logic|libraries)-built=trusted|statements=trusted)$/)
                    print file ": the check says " $i ", of " substr(section, 4) >>wrong
        }' "$room/ci"
    [ "$library" -eq 0 ] || continue
    # a program, or an archive: what its check assumes, which begins with what earlier ones have kept
    log=target/log/$name.out
    if ! grep -qs '^logic=proved ' "$log"; then
        wrong "$log: no line 'logic=proved ..'"
        continue
    fi
    awk -v file="$log" -v wrong="$room/wrong" -v crate="$name" '
        /^axioms / { here = 1 }
        here && /^  [^ ]* *reached$/ { names = names " " $1 }
        /^logic=/ {
            for (i = 1; i <= NF; i++)
                if ($i ~ /^axioms=/)
                    count = substr($i, 8)
                else if ($i !~ /^(functions|target|cpu|sum|native)=/ && $i !~ /^(logic=proved|(logic|libraries)-built=trusted|(statements|incremental)=trusted)$/)
                    print file ": the check says " $i >>wrong
        }
        END { if (count names != "") print crate, count names }' "$log" >>"$room/found"
done <"$room/crates"
sort -o "$room/found" "$room/found"
same 'in docs/TRUST.md, 3' 'assumed by its check'
assumed=$(awk '{ n += $2 } END { print n + 0 }' "$room/found")
# a library's check has no such count: it may name none but the libraries of this repository, and so may an archive
sort "$room/libraries" "$room/archives" >"$room/named"
awk 'NR == FNR { library[$1] = 1; next }
    { sub(/#.*/, ""); name = $0; sub(/[ :].*/, "", name); sub(/^[^:]*:/, "") }
    name in library {
        for (i = 1; i <= NF; i++)
            if (!($i in library))
                print "crates.txt: the library " name " names " $i ", and may assume what that does"
    }' "$room/named" crates.txt >>"$room/wrong"

# ---- the exported functions, `CRATE PATH`, as the checker lists them: their promises in the sources, their entries in Unique, and the page
# that gathers each crate's
"$c_kit/bin/rattle" fmt --check $(find crates -path 'crates/*/out' -prune -o -name '*.rt' -print) >"$room/read" 2>&1 ||
    wrong "a source is not in the layout in which it is read here: $(head -n 1 "$room/read")"
while read -r name; do cat "target/log/$name.exported"; done <"$room/libraries" | sort >"$room/exported"
exported=$(wc -l <"$room/exported")
[ "$exported" -gt 0 ] || wrong 'no exported function is found'
while read -r name; do find "crates/$name/src" -name '*.rt'; done <"$room/libraries" >"$room/files"
awk -f tests/lib/exported.awk "$room/exported" $(cat "$room/files") >"$room/read"
sed -n 's/^wrong //p' "$room/read" >>"$room/wrong"
sed '/^wrong /d' "$room/read" >"$room/exported"
awk -f tests/lib/unique.awk "$room/exported" crates/*/proofs/Unique.antt >"$room/read"
sort "$room/read" >>"$room/wrong"
while read -r name; do
    library=${name%_c}
    if [ "$library" = "$name" ] || [ ! -d "crates/$library/src" ]; then
        wrong "crates/$name: an archive of no library"
    else
        awk -f tests/lib/archived.awk "$room/exported" $(find "crates/$library/src" -name '*.rt') $(find "crates/$name/src" -name '*.rt') >>"$room/wrong"
    fi
done <"$room/archives"
page=crates/demands/proofs/Unique.antt
sed -n 's/^pub use Rattle[.]\([a-z_0-9]*\)[.]proofs[.]Unique as .*/\1/p' "$page" | sort >"$room/claimed"
cut -d ' ' -f 1 "$room/exported" | sort -u >"$room/found"
same "gathered by $page" 'with functions that it exports'

if [ -s "$room/wrong" ]; then
    sed 's/^/claims: /' "$room/wrong" >&2
    exit 1
fi
crates=$(wc -l <"$room/crates")
echo "$crates crates, $edits edits that must fail, $tests tests, $assumed assumptions, $exported exported functions: as claimed"
