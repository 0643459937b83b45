# Holds an archive's calls to the functions that they are of: each export has the name, the parameters, the result and the clauses, word for
# word, of an exported function of the library below it, and every function of the archive is an export.
#   awk -f archived.awk EXPORTED SOURCE.. ARCHIVE    EXPORTED: `CRATE PATH LENT` of each; SOURCE: the library's; ARCHIVE: crates/CRATE_c/src/lib.rt
# Prints a line for what is wrong.

NR == FNR {
    name = $2
    sub(/.*[.]/, "", name)
    exported[$1 " " name] = 1
    next
}

FNR == 1 {
    split(FILENAME, folder, "/")
    crate = folder[2]
    attribute = ""
    head = ""
}

/^#\[/ { attribute = $0 }

/^(pub )?(extern "C" )?fn / {
    archive = crate ~ /_c$/
    c = sub(/^pub extern "C" fn /, "pub fn ")
    name = $0
    sub(/^.*fn /, "", name)
    sub(/[^A-Za-z_0-9].*/, "", name)
    if (archive && !(c && attribute == "#[unsafe(no_mangle)]"))
        print crate "::" name ": no export, in an archive"
    if (!archive && c)
        print crate "::" name ": an export, in a library"
    head = " "
}

head != "" {
    if ($0 == "{") {
        if (!archive)
            said[crate " " name] = head
        else {
            library = crate
            sub(/_c$/, "", library)
            calls++
            if (!((library " " name) in exported))
                print crate "::" name ": " library " exports no such function"
            else if (said[library " " name] != head)
                print crate "::" name ": not the parameters, the result and the clauses of " library "::" name
        }
        head = attribute = ""
    } else
        head = head $0 "\n"
}

END {
    if (!calls)
        print crate ": an archive without a call"
}
