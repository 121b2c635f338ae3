# Read first: takes the definitions of specs/, with the sentence above each, and the public calls of src/, with theirs, and
# finds which definitions each of them names. A definition is known as CRATE/FILE/NAME, a type of the program as
# CRATE/src/FILE.rt/NAME.

# The first sentence of a comment.
function first_sentence(text) {
    sub(/^ +/, "", text)
    if (match(text, /[.:] +[A-Z`]/)) text = substr(text, 1, RSTART)
    sub(/[.:]? *$/, "", text)
    return text
}

# What a line `use Rattle.CRATE.specs...` lets a file name: single words, and words behind which others stand.
function take_use(line, file,    path, parts, count, names, i, pair, target, behind) {
    sub(/^.*use Rattle\./, "", line)
    sub(/;.*$/, "", line)
    path = line
    sub(/(\.\{| as ).*$/, "", path)
    count = split(path, parts, ".")
    if (!(parts[1] in is_crate) || parts[2] != "specs") return
    if (parts[3] == "declared") target = parts[1] "/src/" parts[4] ".rt/" parts[5]
    else target = parts[1] "/" parts[3]
    if (match(line, /\{.*\}/)) {
        count = split(substr(line, RSTART + 1, RLENGTH - 2), names, /, */)
        for (i = 1; i <= count; i++) {
            split(names[i], pair, / as /)
            if (pair[2] == "") pair[2] = pair[1]
            word_of[file, pair[2]] = parts[3] == "declared" ? target : target "/" pair[1]
            if (pair[2] ~ /◌/) signs[file] = signs[file] " " pair[2]
        }
    } else {
        behind = match(line, / as /) ? substr(line, RSTART + 4) : parts[count]
        front_of[file, behind] = target
    }
}

function begin_item(name, line) {
    item = crate "/" file_name "/" name
    if (!(item in line_of)) {
        items[++item_count] = item
        items_of[where] = items_of[where] " " item_count
    }
    line_of[item] = line
    said_of[item] = first_sentence(above)
    place_of_item[item] = where
    if (name ~ /◌/) signs[where] = signs[where] " " name
    group_of[item] = group
    above = ""
}

FNR == 1 {
    split(FILENAME, path_parts, "/")
    is_spec = FILENAME ~ /\.antt$/
    crate = path_parts[1]
    file_name = path_parts[3]
    if (is_spec) sub(/\.antt$/, "", file_name)
    where = is_spec ? crate "/" file_name : crate "/src/" file_name
    group = ""
    above = ""
    at_head = 1
    owner = ""
    in_call = 0
}

# crates.txt: the layers and their crates.
FILENAME == "../crates.txt" {
    if (/^# [a-zA-Z]+: / && !/^# NAME: /) {
        layer = substr($0, 3)
        layers[++layer_count] = substr(layer, 1, index(layer, ":") - 1)
        holds[layer_count] = substr(layer, index(layer, ":") + 2)
    }
    if (match($0, /^[a-z0-9_]+:/)) {
        name = substr($0, 1, RLENGTH - 1)
        is_crate[name]
        crates_of[layer_count] = crates_of[layer_count] " " name
    }
    next
}

/^ *(ghost )?(pub )?use Rattle\./ { take_use($0, where); at_head = 0; next }

# ---- definitions

is_spec && /^ *--/ {
    text = $0
    sub(/^ *-- ?/, "", text)
    if (at_head) said_of_file[where] = said_of_file[where] " " text
    else above = above " " text
    next
}
is_spec && at_head { at_head = 0 }
is_spec && /^ *$/ { above = ""; next }
is_spec && /^(abbrev |unfoldable )?mutual/ { group = where "/" FNR; is_mutual = 1; next }
is_spec && /^(abbrev |unfoldable )?pub / {
    group = where "/" FNR
    is_mutual = 0
    name = $0
    is_data = name ~ /pub data /
    sub(/^(abbrev |unfoldable )?pub ((record|data|syntax) )?/, "", name)
    sub(/[ :({].*$/, "", name)
    begin_item(name, FNR)
}
is_spec && /^  pub / && is_mutual {
    name = $0
    is_data = name ~ /pub data /
    sub(/^  pub ((record|data) )?/, "", name)
    sub(/[ :({].*$/, "", name)
    begin_item(name, FNR)
}
# A case of a type, by which the type is named.
is_spec && is_data && /^ +[^ ]+ : / && !/ pub / { variant_of[where, $1] = item }
is_spec && group != "" { body[group] = body[group] " " $0; height[group]++; above = ""; next }
is_spec { next }

# ---- public calls

/^\/\/! / && file_name ~ /^(lib|main)\.rt$/ && at_head { said_of_crate[crate] = said_of_crate[crate] substr($0, 4); next }
/^\/\/!$/ { at_head = 0; next }
file_name == "lib.rt" && /^pub use [a-z_0-9]+::/ || is_handed {
    is_handed = !/;$/
    handed = $0
    sub(/^pub use [a-z_0-9]+::/, "", handed)
    gsub(/[{};]/, "", handed)
    count = split(handed, names, /, */)
    for (i = 1; i <= count; i++) { gsub(/ /, "", names[i]); if (names[i] != "") is_public[crate, names[i]] }
    next
}
/^ *\/\/\// {
    text = $0
    sub(/^ *\/\/\/ ?/, "", text)
    if (text == "") is_told = 1
    else if (!is_told) above = above " " text
    next
}
/^ *#\[/ { next }
/^(pub )?(trait|impl)/ {
    owner = $0
    is_trait = owner ~ /^pub trait/
    sub(/^pub trait /, "", owner)
    sub(/^impl(<[^>]*>+)? /, "", owner)
    sub(/^.* for /, "", owner)
    sub(/[ <:{].*$/, "", owner)
}
/^}/ { owner = ""; is_trait = 0 }
/^(    )?(pub )?fn / && (/^pub |^    pub / || is_trait && /^    fn /) {
    name = $0
    sub(/^ *(pub )?fn /, "", name)
    sub(/[<(].*$/, "", name)
    if (/^ / && owner != "") name = owner "::" name
    call = where "/" name
    calls[++call_count] = call
    calls_of[crate] = calls_of[crate] " " call_count
    said_of[call] = first_sentence(above)
    in_call = 1
}
in_call && /^ *(ensures|requires) / {
    clause = $1 == "requires" ? "requires" : $2 == "{" ? "" : $2
    if (clause != "" && clause != "requires") clauses[call] = clauses[call] (clauses[call] == "" ? "" : ", ") "`" clause "`"
    if (!((call, clause) in text_of)) clause_names[call] = clause_names[call] " " (clause == "" ? "-" : clause)
}
in_call && clause_names[call] != "" && !/^ *\/\// { text_of[call, clause] = text_of[call, clause] " " $0 }
in_call && /^ *\{\}?$|[^}] \{\}?$|;$/ {
    if (/^\{\}$/) is_law[call]
    in_call = 0
}
!/^ *$/ { above = ""; is_told = 0 }
/^ *$/ { above = ""; is_told = 0 }

# ---- what names what

function is_public_call(call, crate,    owner) {
    owner = call
    sub(/^.*\//, "", owner)
    sub(/::.*$/, "", owner)
    return (crate, owner) in is_public
}

# What is named, in the order in which it stands in the text.
function note(target) {
    if (!index(target, "/src/")) {
        if (!(target in line_of)) return
        target = group_of[target]
    }
    if (target in is_noted) return
    is_noted[target]
    noted[++noted_count] = target
}

# The groups of definitions and the types that a text of a file names: as noted[1 ..].
function names_in(text, file,    words, count, i, word, front, behind, target, dot, list, holder) {
    split("", is_noted)
    noted_count = 0
    count = split(signs[file], list, " ")
    for (i = 1; i <= count; i++) {
        word = list[i]
        gsub(/◌/, "", word)
        if (index(text, word)) note((file, list[i]) in word_of ? word_of[file, list[i]] : file "/" list[i])
    }
    gsub(/[^A-Za-z0-9_'.-]+/, " ", text)
    count = split(text, words, " ")
    for (i = 1; i <= count; i++) {
        word = words[i]
        dot = index(word, ".")
        front = dot ? substr(word, 1, dot - 1) : word
        behind = dot ? substr(word, dot + 1) : ""
        if ((file "/" front) in line_of) note(file "/" front)
        else if ((file, front) in variant_of) note(variant_of[file, front])
        else if ((file, front) in word_of) {
            target = word_of[file, front]
            if (target in line_of || index(target, "/src/")) note(target)
            else {
                holder = target
                sub(/\/[^\/]*$/, "", holder)
                behind = substr(target, length(holder) + 2)
                if ((holder, behind) in variant_of) note(variant_of[holder, behind])
            }
        } else if ((file, front) in front_of) {
            target = front_of[file, front]
            sub(/\..*$/, "", behind)
            if (index(target, "/src/")) note(target)
            else if ((target "/" behind) in line_of) note(target "/" behind)
            else if ((target, behind) in variant_of) note(variant_of[target, behind])
        }
    }
}

function link_groups(    i, j, g) {
    for (i = 1; i <= item_count; i++) {
        g = group_of[items[i]]
        members[g] = members[g] " " items[i]
        if (g in below) continue
        below[g] = ""
        names_in(body[g], place_of_item[items[i]])
        for (j = 1; j <= noted_count; j++) if (noted[j] != g) below[g] = below[g] " " noted[j]
    }
}
