# A text of the dialect, as `vtl sql` prints it, as one for psql: reads the text, with the folders in VTL_IN and VTL_OUT.
# A statement is translated piece by piece; quoted names and texts stay.
BEGIN {
    RS = "\001"
    inputs = ENVIRON["VTL_IN"]
    outputs = ENVIRON["VTL_OUT"]
}

{
    text = $0
    while (text != "") statement(next_statement())
}

# Takes the text up to the next `;` outside of quotes.
function next_statement(    i, mark, quote) {
    for (i = 1; i <= length(text); i++) {
        mark = substr(text, i, 1)
        if (quote != "") quote = mark == quote ? "" : quote
        else if (mark == "\"" || mark == "'") quote = mark
        else if (mark == ";") break
    }
    mark = substr(text, 1, i - 1)
    text = substr(text, i + 1)
    sub(/^[ \n\r\t]+/, "", mark)
    sub(/^[ \n\r\t]+/, "", text)
    return mark
}

function statement(said,    part) {
    if (said ~ /^SET /) {
        split(said, part, /[ \n]+/)
        print "SELECT set_config('vtl.scale', '" part[3] "', false), set_config('vtl.rounding', '" tolower(part[5]) "', false);"
    } else if (said ~ /^INPUT /) input(said)
    else if (said ~ /^CREATE /) print expressed(said) ";"
    else if (said ~ /^EXPORT /) export(said)
}

# The pieces of a text outside of and within quotes, in `piece`.
function pieces(said,    i, mark, quote, count) {
    split("", piece)
    count = 1
    for (i = 1; i <= length(said); i++) {
        mark = substr(said, i, 1)
        if (quote == "" && (mark == "\"" || mark == "'")) {
            quote = mark
            piece[++count] = mark
        } else {
            piece[count] = piece[count] mark
            if (quote != "" && mark == quote) {
                quote = ""
                count++
            }
        }
    }
    return count
}

# A query: keywords and functions that are other ones here.
function expressed(said,    count, i, told) {
    count = pieces(said)
    for (i = 1; i <= count; i++) {
        if (piece[i] !~ /^["']/) {
            gsub(/BETWEEN\(/, "vtl.\"between\"(", piece[i])
            gsub(/ XOR /, " <> ", piece[i])
            gsub(/PERIOD $/, "PERIOD\002", piece[i])
            gsub(/--/, "- -", piece[i])
        }
        told = told piece[i]
    }
    while (match(told, /PERIOD\002'[^']*'/)) told = substr(told, 1, RSTART - 1) "vtl.period(" substr(told, RSTART + 7, RLENGTH - 7) ")" substr(told, RSTART + RLENGTH)
    return with_nulls(with_ratios(told))
}

# The place of the bracket that closes the one at a place.
function closing(said, from,    i, mark, quote, deep) {
    for (i = from; i <= length(said); i++) {
        mark = substr(said, i, 1)
        if (quote != "") quote = mark == quote ? "" : quote
        else if (mark == "\"" || mark == "'") quote = mark
        else if (mark == "(") deep++
        else if (mark == ")" && --deep == 0) return i
    }
    return 0
}

# RATIO_TO_REPORT(x) OVER (..) is a quotient here.
function with_ratios(said,    at, end, over, last, operand) {
    while ((at = index(said, "RATIO_TO_REPORT("))) {
        end = closing(said, at + 15)
        operand = substr(said, at + 16, end - at - 16)
        over = index(substr(said, end), "(") + end - 1
        last = closing(said, over)
        said = substr(said, 1, at - 1) "vtl.ratio(" operand ", SUM(" operand ") OVER " substr(said, over, last - over + 1) ")" substr(said, last + 1)
    }
    return said
}

# Nulls come first in the order of a window, and last where it falls.
function with_nulls(said,    done, at, end, over, order, frame, item, count, i) {
    while ((at = index(said, " OVER ("))) {
        end = closing(said, at + 6)
        over = substr(said, at + 7, end - at - 7)
        done = done substr(said, 1, at + 6)
        said = substr(said, end)
        frame = ""
        if (match(over, / ROWS BETWEEN .*$/)) {
            frame = substr(over, RSTART)
            over = substr(over, 1, RSTART - 1)
        }
        if (match(over, /ORDER BY .*$/)) {
            order = substr(over, RSTART + 9)
            over = substr(over, 1, RSTART + 8)
            count = split(order, item, /, */)
            for (i = 1; i <= count; i++) over = over (i > 1 ? ", " : "") item[i] (item[i] ~ / DESC$/ ? " NULLS LAST" : " NULLS FIRST")
        }
        done = done over frame
    }
    return done said
}

# An INPUT: its file is read as texts, and these as values.
function input(said,    name, columns, key, count, i, list, texts, values, file, header, names) {
    name = quoted_at(said, 7)
    columns = substr(said, index(said, "("), closing(said, index(said, "(")) - index(said, "(") + 1)
    key = substr(said, index(said, columns) + length(columns))
    sub(/^[ \n]*KEY /, "", key)
    count = pieces(columns)
    for (i = 2; i <= count; i++) {
        if (piece[i] !~ /^"/) continue
        match(piece[i + 1], /^ *[A-Z]+/)
        kind = substr(piece[i + 1], RSTART, RLENGTH)
        gsub(/ /, "", kind)
        list = list (list == "" ? "" : ", ") piece[i] " " type_of[kind]
        values = values (values == "" ? "" : ", ") value_of(kind, piece[i])
        names = names (names == "" ? "" : ", ") piece[i]
    }
    file = inputs "/" substr(name, 2, length(name) - 2) ".csv"
    RS = "\n"
    getline header < file
    close(file)
    RS = "\001"
    sub(/^\357\273\277/, "", header)
    sub(/\r$/, "", header)
    if (header !~ /"/) {
        gsub(/,/, "\",\"", header)
        header = "\"" header "\""
    }
    texts = header
    gsub(/","/, "\" text, \"", texts)
    print "CREATE TEMPORARY TABLE \"$texts\" (" texts " text);"
    print "\\copy \"$texts\" FROM '" file "' WITH (FORMAT csv, HEADER true)"
    print "CREATE TABLE " name " (" list (key ~ /"/ ? ", PRIMARY KEY " key : "") ");"
    print "INSERT INTO " name " (" names ") SELECT " values " FROM \"$texts\";"
    print "DROP TABLE \"$texts\";"
}

BEGIN {
    type_of["NUMBER"] = "numeric"
    type_of["INTEGER"] = "numeric"
    type_of["TEXT"] = "text COLLATE \"C\""
    type_of["PERIOD"] = "text COLLATE \"C\""
    type_of["BOOLEAN"] = "boolean"
    type_of["DATE"] = "date"
}

function value_of(kind, name) {
    if (kind ~ /^(NUMBER|INTEGER)$/) return "vtl.fit(" name "::numeric)"
    if (kind == "PERIOD") return "vtl.period(" name ")"
    return kind == "TEXT" ? name : name "::" type_of[kind]
}

function quoted_at(said, from,    end) {
    end = index(substr(said, from + 1), "\"")
    return substr(said, from, end + 1)
}

# An EXPORT: the texts of the values, in order.
function export(said,    name, order, file) {
    name = quoted_at(said, 8)
    order = substr(said, 8 + length(name))
    file = outputs "/" substr(name, 2, length(name) - 2) ".csv"
    print "SELECT 'SELECT ' || string_agg(format('vtl.text_of(%I) AS %I', attname, attname), ', ' ORDER BY attnum) AS items FROM pg_attribute WHERE attrelid = '" \
        in_text(name) "'::regclass AND attnum > 0 \\gset"
    gsub(/\n/, " ", order)
    gsub(/", "/, "\" NULLS FIRST, \"", order)
    print "CREATE TEMPORARY TABLE \"$sorted\" AS SELECT row_number() OVER (" order ") AS \"$place\", * FROM " name ";"
    print ":items FROM \"$sorted\" ORDER BY \"$place\" \\g (format=csv tuples_only=off footer=off) '" file "'"
    print "DROP TABLE \"$sorted\";"
}

function in_text(name) {
    gsub(/'/, "''", name)
    return name
}
