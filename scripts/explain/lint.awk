# All that is wrong in a structures file and in the inputs of its data sets, a line each, as the program says it of the
# first: the words are those of the call.
BEGIN {
    structures = ARGV[2]
    inputs = ARGV[3]
    readable[structures]
    read_grammar(ENVIRON["VTL_TOP"] "/docs/LANGUAGE.md")
    include(is_role, "identifier measure attribute")
    include(is_type, "integer number string boolean date time_period")
    look_through_structures()
    scale = chosen(ENVIRON["VTL_SCALE"], declared_scale, 6)
    rounding = chosen(ENVIRON["VTL_ROUND"], declared_rounding, "half_up")
    if (!problems) for (number = 1; number <= sets; number++) look_through(set[number])
    exit problems > 0 ? (of_structures ? 2 : 4) : 0
}

# What the option says, else the structures file, else this.
function chosen(option, declaration, otherwise) { return option != "" ? option : (declaration != "" ? declaration : otherwise) }

# A line of a fault, with what is seen there.
function told(line, seen) {
    problems++
    print "error: " line (seen == "" ? "" : ": " seen)
}

# The structures file: each record's first broken rule, and data sets without identifiers.
function look_through_structures(    i) {
    begin_records(structures)
    if (takes_headers()) take_declarations()
    close(source)
    for (i = 1; i <= sets && !problems; i++) if (!(set[i] in has_key)) declaration_told(first_record[set[i]], 10)
    of_structures = problems > 0
}

# Whether the first records are those of a version.
function takes_headers() {
    if (!next_record()) {
        declaration_told(1, 1)
        return 0
    }
    split_record()
    take_opening()
    if (version == 1) return is_header("dataset,component,role,type,codes", 5)
    if (next_record()) split_record()
    return is_header("dataset,component,role,type,codes,nullable", 6)
}

# Whether the record of this version that was read last names its fields.
function is_header(names, count,    i, name) {
    split(names, name, ",")
    if (record_number < version || fields != count) count = -1
    for (i = 1; i <= count; i++) if (field[i] != name[i]) count = -1
    if (count < 0) declaration_told(version, 1)
    return count > 0
}

function declaration_told(number, rule) { told("structures line " number " rule " rule, shown(record, 100)) }

function take_declarations(    rule) {
    while (next_record()) {
        split_record()
        rule = declaration_rule()
        if (rule) declaration_told(record_number, rule)
        else take_declaration()
    }
}

# The first rule that the record breaks, or 0.
function declaration_rule() {
    if (fields != version + 4) return 2
    if (field[1] !~ /^[A-Za-z][A-Za-z0-9_.]*$/ || length(field[1]) > 64 || field[1] in reserved) return 3
    if (field[2] == "" || length(field[2]) > 64 || field[2] ~ /['\001-\037\177]/ || field[2] ~ /\302[\200-\237]/) return 4
    if (!(field[3] in is_role)) return 5
    if (!(field[4] in is_type)) return 6
    if ((field[1], field[2]) in type) return 7
    if (field[5] != "" && (field[3] != "identifier" || field[4] != "string" || !are_codes(field[5]))) return 8
    if (field[1] in count_of && count_of[field[1]] >= (version == 2 ? 256 : 64)) return 9
    return version == 2 && field[6] != "false" && (field[6] != "true" || field[3] == "identifier") ? 11 : 0
}

# Whether the codes of a list are filled and distinct.
function are_codes(list,    code_of, count, i, seen) {
    count = split(list, code_of, "[|]")
    for (i = 1; i <= count; i++) {
        if (code_of[i] == "" || code_of[i] in seen) return 0
        seen[code_of[i]]
    }
    return 1
}

function take_declaration() {
    if (!(field[1] in count_of)) {
        set[++sets] = field[1]
        first_record[field[1]] = record_number
    }
    component[field[1], ++count_of[field[1]]] = field[2]
    role[field[1], field[2]] = field[3]
    type[field[1], field[2]] = field[4]
    codes[field[1], field[2]] = field[5]
    if (version == 2 && field[6] == "false") never_null[field[1], field[2]]
    if (field[3] == "identifier") has_key[field[1]]
}

# The input of a data set.
function look_through(dataset,    path) {
    path = inputs "/" dataset ".csv"
    readable[path]
    if ((getline left < file_path(path)) < 0) {
        told("no file: " path)
        return
    }
    begin_records(path)
    split("", header)
    split("", earlier)
    headers = 0
    if (!next_record()) input_told(dataset, 1, "BadHeader", "there is no record")
    else if (fits_header(dataset)) look_at_records(dataset)
    if (record_number == 1000002) input_told(dataset, 1, "TooManyRows")
    close(source)
}

function input_told(dataset, column, kind, seen) {
    told("input " dataset " line " (record_number ? record_number : 1) " column " column " " kind, seen)
}

# Whether each field of the header names a component, each once.
function fits_header(dataset,    i, names, before) {
    before = problems
    split_record()
    headers = fields
    for (i = 1; i <= fields; i++) {
        header[i] = field[i]
        if (!((dataset, field[i]) in type)) input_told(dataset, i, "BadHeader", code(field[i]) " is no component")
        else if (field[i] in names) input_told(dataset, i, "BadHeader", code(field[i]) " stands twice")
        names[field[i]]
    }
    for (i = 1; i <= count_of[dataset]; i++) {
        if (!(component[dataset, i] in names)) input_told(dataset, headers + 1, "BadHeader", code(component[dataset, i]) " is missing")
    }
    return problems == before
}

function look_at_records(dataset) {
    while (next_record() && record_number < 1000002) {
        split_record()
        look_at_record(dataset)
    }
}

# A record whose fields have values has other identifiers than each one before it.
function look_at_record(dataset,    i, before) {
    if (fields != headers) {
        input_told(dataset, (fields < headers ? fields : headers) + 1, "WrongWidth", fields " fields, and the header has " headers)
        return
    }
    before = problems
    identity = ""
    for (i = 1; i <= fields; i++) look_at_field(dataset, i, header[i], field[i])
    if (problems > before) return
    if (identity in earlier) input_told(dataset, 1, "DuplicateKey", "as line " earlier[identity])
    else earlier[identity] = record_number
}

function look_at_field(dataset, i, name, text,    kind, value, is_key) {
    kind = type[dataset, name]
    is_key = role[dataset, name] == "identifier"
    if (text == "") {
        if (is_key) input_told(dataset, i, "NullIdentifier", code(name))
        else if ((dataset, name) in never_null) input_told(dataset, i, "NotNull", code(name))
        return
    }
    if (!is_text(text)) {
        input_told(dataset, i, "NotText", code(name))
        return
    }
    value = value_of(kind, text)
    if (kind != "string" && is_wrong(value)) input_told(dataset, i, "BadValue", code(name) ", `" shown(text, 60) "`")
    else if (codes[dataset, name] != "" && !index("|" codes[dataset, name] "|", "|" value "|")) input_told(dataset, i, "NotInCodes", code(name) ", `" shown(text, 60) "`")
    if (is_key) identity = identity value SUBSEP
}
