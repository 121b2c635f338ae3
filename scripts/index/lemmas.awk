# Writes FOLDER/LEMMAS.md: the lemma files that proofs of other crates cite.
FILENAME == "../crates.txt" {
    if (match($0, /^[a-z0-9_]+:/)) crates[++crate_count] = substr($0, 1, RLENGTH - 1)
    next
}
FNR == 1 {
    split(FILENAME, parts, "/")
    if (split(FILENAME, parts, "/") == 3) {
        file = parts[1] "/" substr(parts[3], 1, length(parts[3]) - 5)
        files[++file_count] = file
        said[file] = ""
    } else file = ""
    at_head = 1
}
at_head && /^--/ && file != "" { sub(/^-- ?/, ""); said[file] = said[file] (said[file] == "" ? "" : " ") $0; next }
{ at_head = 0 }
match($0, /use Rattle\.[a-z0-9_]+\.proofs\.[A-Za-z]+/) {
    split(substr($0, RSTART + 11, RLENGTH - 11), cited, ".")
    if (cited[1] == parts[1] || ((cited[1] "/" cited[3], parts[1]) in is_told)) next
    is_told[cited[1] "/" cited[3], parts[1]]
    citing[cited[1] "/" cited[3]]++
}
END {
    page = folder "/LEMMAS.md"
    print "# Lemma files that other crates cite\n" > page
    print "Printed by `scripts/index.sh`. The code of a crate calls others by their public contracts alone. Proofs may also cite definitions," > page
    print "which are all public, and these files of `proofs/`; behind each stands how many other crates cite it. A lemma file that is not" > page
    print "here is private to its crate.\n" > page
    print "| crate | lemma files |\n|---|---|" > page
    for (i = 1; i <= crate_count; i++) {
        text = ""
        for (j = 1; j <= file_count; j++) {
            split(files[j], parts, "/")
            if (parts[1] != crates[i] || !(files[j] in citing)) continue
            sentence = said[files[j]]
            if (match(sentence, /\. +[A-Z`]/)) sentence = substr(sentence, 1, RSTART)
            sub(/[.:]? *$/, "", sentence)
            gsub(/\|/, "\\|", sentence)
            text = text (text == "" ? "" : "<br>") "`" parts[2] "` (" citing[files[j]] "): " sentence
        }
        if (text != "") print "| `" crates[i] "` | " text " |" > page
    }
}
