# The records of a CSV file, as docs/FILES.md says: commas, fields in quotes or not, lines ended by LF, CRLF or CR, empty
# lines skipped. `record` is the text of the one that was read last, field[1] to field[fields] its fields, record_line the
# line of the file where it begins, record_number its number, from 1.

# Begins a file.
function begin_records(path) {
    source = file_path(path)
    close(source)
    file_line = record_number = waiting = 0
}

# Reads the next record; whether there is one. Its fields are parted by split_record.
function next_record(    end) {
    if (!begin_line()) return 0
    record_line = file_line
    record_number++
    with_quotes = index(left, "\"")
    if (with_quotes) return quoted_record()
    end = index(left, "\r")
    record = end ? substr(left, 1, end - 1) : left
    left = end ? substr(left, end + 1) : ""
    waiting = left != ""
    return 1
}

# Goes to the next line that is not empty; `left` is what is left of it.
function begin_line() {
    while (1) {
        if (!waiting) {
            if (source == "" || (getline left < source) <= 0) return 0
            file_line++
            if (file_line == 1) sub(/^\357\273\277/, "", left)
            waiting = 1
        }
        sub(/^\r+/, "", left)
        if (left != "") return 1
        waiting = 0
    }
}

# Parts the fields of the record that was read last.
function split_record() {
    if (!with_quotes) fields = split(record, field, ",")
}

# A record with quotes, from its first character to the end of a line that stands outside of quotes.
function quoted_record(    end) {
    record = ""
    fields = 0
    do {
        field[++fields] = ""
        if (left ~ /^"/) quoted_field()
        match(left, /^[^,\r]*/)
        field[fields] = field[fields] substr(left, 1, RLENGTH)
        record = record substr(left, 1, RLENGTH)
        end = substr(left, RLENGTH + 1, 1)
        left = substr(left, RLENGTH + 2)
        if (end == ",") record = record ","
    } while (end == ",")
    waiting = left != ""
    return 1
}

# What stands between quotes; what stands after them up to the comma is part of the field too.
function quoted_field(    end, line) {
    left = substr(left, 2)
    record = record "\""
    while (1) {
        end = index(left, "\"")
        if (!end) {
            field[fields] = field[fields] left "\n"
            record = record left "\n"
            if ((getline line < source) <= 0) {
                left = ""
                return
            }
            left = line
            file_line++
        } else {
            field[fields] = field[fields] substr(left, 1, end - 1)
            record = record substr(left, 1, end)
            left = substr(left, end + 1)
            if (left !~ /^"/) return
            field[fields] = field[fields] "\""
            record = record "\""
            left = substr(left, 2)
        }
    }
}

# Goes on to the record of a number; whether there is one.
function to_record(path, number) {
    begin_records(path)
    while (record_number < number) if (!next_record()) return 0
    split_record()
    return 1
}

# Whether the record that was read last is the first one of a structures file of version 2, which declares a scale and a
# rounding.
function is_opening() {
    return record_number == 1 && fields == 6 && field[1] == "structures" && field[2] == "2" && field[5] field[6] == "" && \
        field[3] ~ /^[0-9]$/ && field[4] ~ /^(half_up|half_even|down)$/
}

# Takes the first record of a structures file, which was parted: its version, and what version 2 declares.
function take_opening() {
    version = is_opening() ? 2 : 1
    if (version == 1) return
    declared_scale = field[3]
    declared_rounding = field[4]
}

# Whether the record that was read last declares a component.
function declares() { return record_number > version && fields == version + 4 }

# Reads the structures file: the components of each data set with role, type and codes, and where each name occurs.
function read_structures(path,    set, name) {
    begin_records(path)
    while (next_record()) {
        split_record()
        if (record_number == 1) take_opening()
        if (!declares()) continue
        set = field[1]
        name = field[2]
        declared[set] = declared[set] name "\n"
        role[set, name] = field[3]
        type[set, name] = field[4]
        codes[set, name] = field[5]
        if (version == 2 && field[6] == "false") never_null[set, name]
        holders[name] = joined(holders[name], code(set))
        of_role[set, field[3]] = joined(of_role[set, field[3]], code(name) " (" field[4] ")")
        if (!((name, field[3], field[4]) in sorts)) sort_of[name] = with_fact(sort_of[name], field[3] " (" field[4] ")")
        sorts[name, field[3], field[4]]
    }
    close(source)
}
