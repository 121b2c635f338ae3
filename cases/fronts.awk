# Writes a table of cases/prefix as one of cases/syntax: each front of the script beside it that does not end within a
# character. The script is ARGV[1], the table ARGV[2].
BEGIN {
    while ((getline line < ARGV[1]) > 0) script = script line "\n"
    FS = ","
    getline < ARGV[2]
    print "text,done,byte"
    while ((getline < ARGV[2]) > 0)
        for (size = $1; size <= $2; size++)
            if (substr(script, size + 1, 1) !~ /[\200-\277]/) print quoted(substr(script, 1, size)) "," $3 "," $4
}

function quoted(text) {
    gsub(/"/, "\"\"", text)
    return "\"" text "\""
}
