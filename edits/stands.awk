# Says of each edit that it is given why it cannot be applied, a line each: above all where an `old:` text does not stand
# exactly once in its file. The pairs of an edit are applied one after the other, as `rt must-fail` does it; with `to` the
# changed files are written below that folder. Texts are bytes: the locale is C.
BEGIN {
    for (i = 1; i < ARGC; i++) look_at(ARGV[i])
    exit failed
}

# An edit, by its path: the crate is the folder below the first one.
function look_at(edit,    part, line, path, old, pairs, changes, is_open) {
    split(edit, part, "/")
    crate = "crates/" part[2]
    delete changed
    if (edit !~ /\/[A-Za-z0-9_-][A-Za-z0-9_.-]*[.]edit$/) return said_of(edit, "its name is no name of an edit")
    while ((getline line < edit) > 0) {
        if (line ~ /^file: /) {
            path = substr(line, 7)
            sub(/[ \t]+$/, "", path)
            if (path !~ /^(src|specs|proofs)\// || path ~ /\/\/|\/[.][.]?(\/|$)|\/$/) return said_of(edit, "it names no file of src, specs or proofs: " path)
        } else if (line ~ /^old: /) {
            if (is_open) return said_of(edit, "an old: text has no new: text behind it")
            old = substr(line, 6)
            is_open = 1
        } else if (line ~ /^new:/) {
            if (!is_open || path == "") return said_of(edit, "a new: text has no file and old: text before it")
            sub(/^new: ?/, "", line)
            if (!is_applied(edit, path, old, line)) return
            if (old != line) changes = 1
            is_open = 0
            pairs++
        }
    }
    close(edit)
    if (is_open) return said_of(edit, "an old: text has no new: text behind it")
    if (!pairs) return said_of(edit, "it has no pair of an old: and a new: text")
    if (!changes) return said_of(edit, "it changes nothing")
    if (to != "") for (path in changed) printf "%s", changed[path] >(to crate "/" path)
}

# Puts one text in place of another in the edit's own copy of a file.
function is_applied(edit, path, old, new,    text, at, found, rest) {
    text = path in changed ? changed[path] : text_of(crate "/" path)
    if (text == "") {
        said_of(edit, "there is no file " crate "/" path)
        return 0
    }
    for (rest = text; old != "" && (at = index(rest, old)); rest = substr(rest, at + length(old))) found++
    if (found != 1) {
        said_of(edit, "stands " found + 0 " times in " crate "/" path ": " old)
        return 0
    }
    at = index(text, old)
    changed[path] = substr(text, 1, at - 1) new substr(text, at + length(old))
    return 1
}

# The text of a file, which is read once.
function text_of(path,    line, text) {
    if (!(path in read)) {
        while ((getline line < path) > 0) text = text line "\n"
        close(path)
        read[path] = text
    }
    return read[path]
}

function said_of(edit, why) {
    close(edit)
    print edit ": " why
    failed = 1
}
