# What is told of the fault of an input: what is seen at the place, and what files of other programs have there.

# `error: input DATASET line LINE column COLUMN KIND`
function input_line(dataset, number, column, kind,    path, named, key) {
    path = inputs "/" dataset ".csv"
    if (at_hand ~ /input /) readable[path]
    if (!(path in readable) || !((of_engine ? script : structures) in readable)) {
        tell("where", shown(path, 200))
        tell("broken", kind ": " (("wrong", kind) in broken ? broken["wrong", kind] : broken["input", kind]))
        tell("here", "not all that was read are files that can be read once more")
        tell("change", change["input", kind])
        return
    }
    read_declarations()
    begin_records(path)
    read_header()
    named = kind != "BadHeader" && column in header ? header[column] : ""
    if (to_record(path, number)) tell_record(path, ", field " column (named == "" ? "" : ", component " code(named)))
    else tell("where", shown(path, 200))
    key = kind == "BadHeader" ? header_habit(dataset) : (kind == "BadValue" ? value_habit(type[dataset, named], field[column]) : "")
    tell("broken", kind ": " (("wrong", kind) in broken ? broken["wrong", kind] : broken["input", kind]))
    tell("here", with_fact(input_fact(path, dataset, number, column, kind, named), in_sentence(key, field[column])))
    tell("change", key == "" ? input_change(dataset, kind, named) : change["data", key])
}

function read_header(    i) {
    if (!next_record()) return
    split_record()
    headers = fields
    for (i = 1; i <= fields; i++) header[i] = field[i]
}

# What is seen of an input's fault.
function input_fact(path, dataset, number, column, kind, named) {
    if (kind == "BadHeader") return header_fact(dataset)
    if (kind == "WrongWidth") return fields " fields, and the header has " headers
    if (kind == "NotInCodes") return quoted(field[column]) " is none of " shown(codes[dataset, named], 120)
    if (kind == "BadValue") return quoted(field[column]) " is no " type[dataset, named]
    if (kind == "DuplicateKey") return earlier_point(path, dataset, number)
    return ""
}

function quoted(text) { return "`" shown(text, 60) "`" }

function input_change(dataset, kind, named,    sort) {
    sort = type[dataset, named]
    if (sort == "integer" || sort == "number") sort = "integer, number"
    return change["input", kind] (kind == "BadValue" ? ": " broken["type", sort] : "")
}

# The components that the header misses, and the names that are none or stand twice.
function header_fact(dataset,    i, present, names, known, count, told) {
    count = split(declared[dataset], names, "\n")
    for (i = 1; i < count; i++) known[names[i]]
    for (i = 1; i <= headers; i++) {
        if (header[i] in present) told = with_fact(told, quoted(header[i]) " stands twice")
        else if (!((dataset, header[i]) in type)) told = with_fact(told, quoted(header[i]) " is no component of " code(dataset) meant_name(header[i], known))
        present[header[i]]
    }
    for (i = 1; i < count; i++) if (!(names[i] in present)) told = with_fact(told, code(names[i]) " is missing")
    return shown(told, 300)
}

# The component that a name of a header may mean.
function meant_name(text, known,    other) {
    gsub(/^[ \t]+|[ \t]+$/, "", text)
    other = text in known ? text : nearest(text, known)
    return other == "" ? "" : " (is " code(other) " meant?)"
}

# What a header shows of the program that wrote the file, or nothing.
function header_habit(dataset,    i, part, count, components, known, unknown) {
    if (record ~ /^(\377\376|\376\377)/ || record ~ /^\?\?./) return "utf_16"
    components = split(declared[dataset], part, "\n") - 1
    if (headers == 1 && components > 1 && split(header[1], part, ";") > 1) return "semicolon"
    if (headers == 1 && components > 1 && split(header[1], part, "\t") > 1) return "tab"
    for (i = 1; i <= headers; i++) {
        if (header[i] == "") return "unnamed"
        if ((dataset, header[i]) in type) known++
        else unknown++
    }
    if (!known && headers == components && header[headers] ~ /^[-+0-9.]*$/) return "header"
    for (i = 1; i <= headers; i++) if (header[i] ~ /^[ \t]|[ \t]$/) return "blank"
    return known == components && unknown ? "extra" : ""
}

# What a field shows that is no value of its type, or nothing.
function value_habit(sort, text) {
    if (tolower(text) ~ /^(na|n\/a|nan|null|none|nil|[.]|[.][.]|[.][.][.]|:|-|--|#n\/a)$/) return "missing"
    if (text ~ /^[ \t]|[ \t]$/) return "blank"
    if (sort == "time_period" && text ~ /^[0-9][0-9][0-9][0-9][AaSsQqMm][0-9]/) return "period"
    if (sort != "integer" && sort != "number") return ""
    if (text ~ /^[-+]?[0-9.]+ *%$/) return "percent"
    if (text ~ /^[-+]?[0-9]+,[0-9]+$/) return "decimal_comma"
    if (text ~ /^[-+]?[0-9][0-9]?[0-9]?([ ,.'][0-9][0-9][0-9])+([.,][0-9]+)?$/) return "group_mark"
    scale = option_of_call("--scale", declared_scale == "" ? 6 : declared_scale)
    rounding = option_of_call("--round", declared_rounding == "" ? "half_up" : declared_rounding)
    text = value_of(sort, text)
    return text == "range" || text == "fraction" ? text : ""
}

# What stands behind an option of the call, or what is taken without it.
function option_of_call(option, otherwise,    i) {
    for (i = 2; i < ARGC - 1; i++) if (ARGV[i] == option) return ARGV[i + 1]
    return otherwise
}

# What is said of a habit, where it is said, about a field.
function in_sentence(key, text,    said_of) {
    said_of = key == "" ? "" : broken["data", key]
    if (key == "missing") sub(/%/, shown(text, 20), said_of)
    if (key == "range") {
        takes_numeral(text)
        sub(/%/, length(digits_up_to(point, 80)), said_of)
        sub(/%/, 18 - scale, said_of)
    }
    return said_of
}

# The first point before this one whose identifiers stand as the same texts.
function earlier_point(path, dataset, number,    i, key, same) {
    if (!(dataset in declared)) return ""
    for (i = 1; i <= headers; i++) if (role[dataset, header[i]] == "identifier") key[i] = field[i]
    begin_records(path)
    next_record()
    while (record_number < number - 1 && next_record()) {
        split_record()
        same = 1
        for (i in key) if (field[i] != key[i]) same = 0
        if (same) return "line " record_line " has the same identifiers: " shown(record, 80)
    }
    return "an earlier point has the same identifiers, written otherwise"
}
