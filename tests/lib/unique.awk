# Holds the entries of each crate's Unique.antt to the functions that the crate exports, both ways, and prints a line for what is wrong:
#   awk -f unique.awk EXPORTED UNIQUE..     EXPORTED: `CRATE PATH LENT` of each; UNIQUE: crates/CRATE/proofs/Unique.antt
# An entry `pub NAME_unique : Unique .. X.Post` (UniqueLent; UniqueBehind of one that hands back a reference; UniqueWalked X.ended of one
# whose contract is taken as it is exported) is of the function that a `use` line brings as X, whatever NAME says; what is lent it picks by as many `.N.now`. What
# `Unique` says is in crate promise, and nowhere else.

function said(f) {
    gsub(/[ .]/, "::", f)
    return f
}

function entry(name, statement,   word, f) {
    split(statement, word, " ")
    if (word[1] == "UniqueWalked" && sub(/[.]ended$/, "", word[2]))
        f = brought[word[2]]
    else if (word[1] ~ /^Unique(Lent|Behind)?$/ && sub(/[.]Post$/, "", word[5]))
        f = brought[word[5]]
    if (!(f in lent))
        print "Unique of " crate ": " name " is of no exported function: " (f == "" ? statement : said(f))
    else if (index(f, crate " ") != 1)
        print "Unique of " crate ": " name " is of another crate's function: " said(f)
    else if (!(word[1] in given))
        print "Unique of " crate ": " name " says a " word[1] " that is not crate promise's"
    else if (gsub(/[.][0-9]+[.]now/, "", statement) != lent[f])
        print "Unique of " crate ": " name " does not speak of all that is lent to " said(f) ": `&mut` parameters: " lent[f]
    else
        entries[f]++
}

# A declaration goes on over the lines that are set in.
function declared(   name, names) {
    name = text
    if (text ~ /^use Rattle[.][a-z_0-9]+[.](proofs|specs[.]contracts)[.]/) {
        # what has no `as` is brought by its last name
        if (!sub(/^.* as /, "", name))
            sub(/^.*[.]/, "", name)
        sub(/^use Rattle[.]/, "", text)
        sub(/([.]Reads)?( as .*)?$/, "", text)
        sub(/[.](proofs|specs[.]contracts)[.]/, " ", text)
        brought[name] = text
    } else if (sub(/^use Rattle[.]promise[.]specs[.]Unique[.][{]/, "", text)) {
        sub(/[}].*/, "", text)
        split(text, names, /, */)
        for (name in names)
            given[names[name]] = 1
    } else if (text ~ /^pub [^ ]+_unique :/) {
        sub(/^pub /, "", name)
        sub(/ :.*/, "", name)
        sub(/^[^:]*: */, "", text)
        entry(name, text)
    }
    text = ""
}

NR == FNR {
    lent[$1 " " $2] = $3
    next
}

FNR == 1 {
    declared()
    split("", brought)
    split("", given)
    split(FILENAME, folder, "/")
    crate = folder[2]
}

{
    sub(/(^| )--.*/, "")
    if ($0 !~ /^ /)
        declared()
    text = text $0
}

END {
    declared()
    for (f in lent) {
        if (!(f in entries))
            print "Unique: no entry for " said(f)
        else if (entries[f] > 1)
            print "Unique: " entries[f] " entries for " said(f)
    }
}
