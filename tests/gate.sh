#!/bin/sh
# Shows that the gate cannot end in '0 failed' where a step failed or is missing: .ci/run in a scratch folder, with a stand-in for `rt`.
set -eu
cd "$(dirname "$0")/.."
scratch=$(mktemp -d)
trap 'rm -rf "$scratch"' EXIT
mkdir -p "$scratch/.ci" "$scratch/tests" "$scratch/bin"
cp .ci/run "$scratch/.ci/run"
echo 'test one.sh' >"$scratch/tests/claims.txt"
for tool in bash sh cat cp dirname grep mkdir mktemp rm tail tee; do
    ln -s "$(command -v "$tool")" "$scratch/bin/$tool"
done

# expect STATUS LAST_LINE: what the gate ends with, where `rt` is what $scratch/bin/rt says.
expect() {
    status=0
    PATH="$scratch/bin" "$scratch/bin/bash" "$scratch/.ci/run" >"$scratch/out" 2>&1 || status=$?
    last=$(tail -n 1 "$scratch/out")
    if [ "$status" -ne "$1" ] || [ "$last" != "$2" ]; then
        echo "expected status $1 and '$2', got status $status and '$last'" >&2
        exit 1
    fi
}

# rt_says STATUS LAST_LINE [EDITS]: where all passed, the line before says so
rt_says() {
    ok=
    [ "$1" -ne 0 ] || ok="echo 'rt: ok; handles allowed: none${3-; must-fail edits: 5 refused}; every proof and must-fail edit was done in this run'"
    printf '#!/bin/sh\necho working\n%s\necho "%s"\nexit %s\n' "$ok" "$2" "$1" >"$scratch/bin/rt"
    chmod +x "$scratch/bin/rt"
}

test_says() {
    printf 'exit %s\n' "$1" >"$scratch/tests/one.sh"
}

test_says 0
rt_says 0 '3 passed, 0 failed' && expect 0 '4 passed, 0 failed'
rt_says 1 '2 passed, 1 failed' && expect 1 '2 passed, 2 failed'  # a broken proof
rt_says 1 '3 passed, 0 failed' && expect 1 '3 passed, 2 failed'  # a status that the count hides
rt_says 0 '0 passed, 0 failed' && expect 1 '1 passed, 1 failed'  # nothing was proved
rt_says 2 'rt: bad crates.txt' && expect 1 '0 passed, 2 failed'  # no count at all
rt_says 0 '3 passed, 0 failed' '; must-fail edits: 4 refused, 1 of them only by a limit' && expect 0 '4 passed, 0 failed'
rt_says 0 '3 passed, 0 failed' '; must-fail edits: 4 refused, 2 bad' && expect 1 '4 passed, 2 failed'  # edits that cannot be tried
rt_says 0 '3 passed, 0 failed' '; must-fail edits: 14 refused, 2 of them only by a limit, 10 bad' && expect 1 '4 passed, 10 failed'
printf '#!/bin/sh\necho "3 passed, 0 failed"\n' >"$scratch/bin/rt" && expect 1 '4 passed, 1 failed'  # a count, and no word that all is well
rm "$scratch/bin/rt" && expect 1 '0 passed, 2 failed'            # no rt
test_says 1
rt_says 0 '3 passed, 0 failed' && expect 1 '3 passed, 1 failed'  # a failing test
rm "$scratch/tests/one.sh" && expect 1 '3 passed, 2 failed'      # no test, and the one that is named
test_says 0
echo 'test two.sh' >>"$scratch/tests/claims.txt" && expect 1 '4 passed, 1 failed'  # a test that was taken away
rm "$scratch/tests/claims.txt" && expect 1 '4 passed, 1 failed'  # no list of tests
echo "the gate fails where it must, in 12 ways"
