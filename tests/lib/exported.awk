# Holds each function that a crate exports to its promise, as the sources have it, in the layout of `rt fmt`:
#   awk -f exported.awk EXPORTED SOURCE..     EXPORTED: `CRATE PATH` of each, as the checker lists them
# Prints `CRATE PATH LENT`, with how many `&mut` parameters it has, and `wrong ..` for what is wrong.

NR == FNR {
    listed[++count] = $0
    next
}

FNR == 1 {
    split(FILENAME, folder, "/")
    crate = folder[2]
    module = folder[4]
    sub(/[.]rt$/, "", module)
    here = crate " " (module == "lib" ? "" : module) " "
    derived = ""
}

/^impl/ {
    self = $0
    sub(/^impl(<[^>]*>)? /, "", self)
    sub(/[^A-Za-z_0-9].*/, ".", self)
}

/^}/ { self = "" }

# A type that is not `pub` is no other crate's, and what a trait gives it, in the file that has it, is not exported,
# though the checker lists it. What a derive writes is a function too: `==` of the `pub` type below it, with the promise
# of its trait.
/^#\[derive\(.*PartialEq/ { derived = "PartialEq.eq" }

/^(pub(\([^)]*\))? )?(struct|enum) / {
    type = $0
    sub(/^.*(struct|enum) /, "", type)
    sub(/[^A-Za-z_0-9].*/, "", type)
    if (!/^pub (struct|enum) /) {
        inner[here type] = 1
    } else if (derived) {
        found[here type derived]++
        ensures[here type derived]++
        lent[here type derived] += 0
    }
    derived = ""
}

/^impl.* for / {
    type = trait = $0
    sub(/^.* for /, "", type)
    sub(/[^A-Za-z_0-9].*/, "", type)
    sub(/^impl(<[^>]*>)? /, "", trait)
    sub(/ for .*/, "", trait)
    gsub(/[<>]/, "", trait)
    given[here type trait] = here type
}

/^ *pub (extern "C" )?fn / {
    name = $0
    sub(/^.*fn /, "", name)
    sub(/[^A-Za-z_0-9].*/, "", name)
    f = crate " " self name
    found[f]++
    head = 1
}

# A function's head ends with its body, which may be empty; each clause begins a line.
head {
    clause = $1 == "ensures" || $1 == "requires"
    ensures[f] += $1 == "ensures"
    requires[f] += $1 == "requires"
    if (!clause)
        lent[f] += gsub(/&('[a-z]+ )?mut /, "")
    if (!clause && /[{}]$/)
        head = 0
}

END {
    for (i = 1; i <= count; i++) {
        n = split(listed[i], step, /[ .]/)
        f = step[1] " " (step[n - 1] ~ /^[A-Z]/ ? step[n - 1] "." : "") step[n]
        at = step[1] " " (n > 4 ? "?" : n > 3 ? step[2] : "") " " step[n - 1]
        if (given[at] in inner)
            continue
        if (at "." step[n] in found)
            f = at "." step[n]
        said = listed[i]
        gsub(/[ .]/, "::", said)
        if (found[f] != 1)
            print "wrong " said ": exported, and found in " found[f] + 0 " places of the sources"
        if (!ensures[f])
            print "wrong " said ": exported, and has no `ensures`"
        if (requires[f])
            print "wrong " said ": exported, and has a `requires`"
        print listed[i], lent[f]
    }
}
