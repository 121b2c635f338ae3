# A draft of a structures file for the CSV files that are the arguments.
BEGIN {
    scale = 6
    rounding = "half_up"
    kinds = split("boolean integer number date time_period", kind, " ")
    read_grammar(ENVIRON["VTL_TOP"] "/docs/LANGUAGE.md")
    print "dataset,component,role,type,codes"
    for (place = 2; place < ARGC; place++) draft(ARGV[place])
    exit problems > 0 ? 4 : 0
}

# What a person should look at.
function notice(text) { print "notice:   " shown(path, 200) ": " text > "/dev/stderr" }

# What keeps a file from being read.
function refuse(text) {
    problems++
    notice(text)
}

function draft(file,    set, keys, i) {
    path = file
    readable[path]
    set = path
    sub(/.*\//, "", set)
    sub(/[.][^.]*$/, "", set)
    if (set !~ /^[A-Za-z][A-Za-z0-9_.]*$/ || length(set) > 64 || set in reserved) {
        refuse("`" shown(set, 60) "` is no name of a data set: rename the file")
        return
    }
    if (!takes_header() || !takes_fields()) return
    keys = keys_of()
    for (i = 1; i <= columns; i++) print declaration(set, i, keys)
}

# The names of the columns.
function takes_header(    i, seen) {
    begin_records(path)
    if (!next_record()) {
        refuse("there is no header")
        return 0
    }
    split_record()
    columns = fields
    for (i = 1; i <= columns; i++) {
        name[i] = field[i]
        if (name[i] == "" || name[i] in seen || length(name[i]) > 64 || name[i] ~ /['\001-\037]/ || !is_text(name[i])) {
            refuse("`" shown(name[i], 60) "` is no name of a component, or stands twice")
            return 0
        }
        seen[name[i]]
    }
    if (columns == 1 && record ~ /[;\t]/) refuse("one column: are fields parted by `;` or tabs? write commas")
    if (columns > 64) refuse("more than 64 columns: declare them in version 2 of a structures file")
    return columns > 1 || record !~ /[;\t]/
}

# Which kinds the fields of each column have, and where one is empty.
function takes_fields(    i) {
    split("", fits_not)
    split("", has_empty)
    split("", has_field)
    split("", looked_at)
    split("", count)
    split("", is_large)
    while (next_record()) {
        split_record()
        if (fields != columns) {
            refuse("line " record_line " has " fields " fields, and the header has " columns)
            return 0
        }
        for (i = 1; i <= columns; i++) take_field(i, field[i])
    }
    close(source)
    return 1
}

function take_field(i, text,    k) {
    if (text == "") {
        has_empty[i]
        return
    }
    has_field[i]
    if ((i, text) in looked_at) return
    if (++count[i] <= 50000) looked_at[i, text]
    for (k = 1; k <= kinds; k++) if (!((i, kind[k]) in fits_not) && !fits(kind[k], i, text)) fits_not[i, kind[k]]
}

# Digits with a zero in front are a code, not a number.
function fits(type, i, text,    value) {
    if (type ~ /^(integer|number)$/ && text ~ /^[-+]?0[0-9]/) return 0
    value = value_of(type, text)
    if (value != "range") return !is_wrong(value)
    is_large[i] = text
    return 1
}

# The type of a column: a year is a period where the name says so.
function type_of(i,    k) {
    if (!(i in has_field)) return "string"
    if (!((i, "time_period") in fits_not) && (((i, "integer") in fits_not) || toupper(name[i]) ~ /PERIOD|^TIME$/)) return "time_period"
    for (k = 1; k <= kinds; k++) if (!((i, kind[k]) in fits_not)) return kind[k]
    return "string"
}

# How many columns from the first on are a key without empty fields.
function keys_of(    most, keys) {
    for (most = 0; most < columns && !(most + 1 in has_empty); most++) ;
    for (keys = 1; keys <= most; keys++) if (is_key(keys)) return keys
    notice("no columns from the first on are a key: the first" (most > 1 ? " " most : "") " stand as identifiers, and points may occur twice")
    return most > 0 ? most : 1
}

function is_key(keys,    i, text, seen) {
    begin_records(path)
    next_record()
    while (next_record()) {
        split_record()
        text = ""
        for (i = 1; i <= keys; i++) text = text field[i] SUBSEP
        if (text in seen) {
            close(source)
            return 0
        }
        seen[text]
    }
    close(source)
    return 1
}

function declaration(set, i, keys,    type, role, k) {
    type = type_of(i)
    if (!(i in has_field)) notice("`" shown(name[i], 60) "` has no field with a value: its type is a guess")
    if (i in is_large && type ~ /^(integer|number)$/) notice("`" shown(name[i], 60) "` has `" shown(is_large[i], 40) "`: give a smaller `--scale`, or take it as a string")
    role = i <= keys ? "identifier" : "measure"
    if (role == "measure" && type == "string") for (k = keys + 1; k <= columns; k++) if (type_of(k) ~ /^(integer|number)$/) role = "attribute"
    return set "," in_field(name[i]) "," role "," type ","
}

# A text as a field.
function in_field(text) {
    if (text !~ /[",]/) return text
    gsub(/"/, "\"\"", text)
    return "\"" text "\""
}
