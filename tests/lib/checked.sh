# What the checks have of each crate beside the verdict, which is `rt ci`'s, for claims.sh; in target/log:
#   NAME.out            of a program or an archive: what its check prints, with the name of every C function that it assumes something of
#   NAME.exported       of a library: its exported functions, `NAME PATH`, as the checker lists them
# To be sourced behind build.sh, from the root of the repository. What is there of the same kit and sources stays.

checked_state=$(c_state)
if [ "$(cat target/log.made 2>/dev/null)" != "$checked_state" ]; then
    rm -rf target/log target/log.made
    mkdir target/log
    for checked in $(sed -n -e 's/#.*//' -e 's/[ :].*//p' crates.txt); do
        folder=crates/$checked
        if [ -f "$folder/src/main.rt" ] || grep -q "^$checked  *staticlib" crates.txt; then
            # what its check says is read, whatever its status
            (cd "$folder" && rt check --list-axioms) >"target/log/$checked.out" 2>&1 || :
            continue
        fi
        # What `rt ci` left is as it proved it; what another command left may be of other sources.
        rlib=$folder/out/rlib
        if [ -f "$rlib/stamp" ] || [ ! -d "$rlib/$checked.rlib" ]; then
            (cd "$folder" && rt lib) >"target/log/$checked.lib" 2>&1 || { cat "target/log/$checked.lib" >&2; exit 1; }
        fi
        sed -n 's|^\["facade/proofs/\([^"]*\)/Symbol",.*|\1|p' "$rlib/$checked.rlib/toolchain/made.json" | tr / . | sed "s/^/$checked /" |
            sort >"target/log/$checked.exported"
    done
    echo "$checked_state" >target/log.made
fi
