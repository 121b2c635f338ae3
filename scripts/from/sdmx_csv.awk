# The columns of a CSV file that are components of a data set, in the order of the file.
BEGIN {
    readable[ARGV[1]]
    readable[ARGV[3]]
    read_structures(ARGV[1])
    begin_records(ARGV[3])
    while (next_record()) {
        split_record()
        if (record_number == 1) choose()
        write()
    }
    if (!columns) print "notice:   no column is a component of " code(ARGV[2]) > "/dev/stderr"
    exit !columns
}

# The columns that are declared; a name may stand before or behind a colon, as SDMX-CSV has labels.
function choose(    i, name) {
    for (i = 1; i <= fields; i++) {
        name = field[i]
        sub(/:.*/, "", name)
        if (!((ARGV[2], name) in type)) continue
        column[++columns] = i
        field[i] = name
    }
}

function write(    i, line) {
    for (i = 1; i <= columns; i++) line = line (i == 1 ? "" : ",") in_field(field[column[i]])
    print line
}

function in_field(text) {
    if (text !~ /[",\r\n]/) return text
    gsub(/"/, "\"\"", text)
    return "\"" text "\""
}
