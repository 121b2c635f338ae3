# The tokens and statements of a script, by the forms of docs/LANGUAGE.md. Bytes count from 0, lines and places from 1.
# script_line and line_start are the lines and their first bytes; symbol, token_text, token_row and token_at the tokens.

# How many bytes of a line are looked at in one go: a copy of the whole rest for each token would be slow.
function window() { return 512 }

# Reads the lines of a script; there are none where it cannot be read.
function read_script(path,    line, start) {
    while (path in readable && (getline line < file_path(path)) > 0) {
        rows++
        script_line[rows] = line
        line_start[rows] = start + 0
        start += length(line) + 1
    }
    close(file_path(path))
}

# Reads the tokens up to the first byte from which none starts, whose kind of fault is `fault`.
function read_tokens(    first) {
    include(long_signs, ":= <- <> <= >= ||")
    row = 1
    at = substr(script_line[1], 1, 3) == "\357\273\277" ? 4 : 1
    while (fault == "" && to_token()) {
        first = substr(script_line[row], at, 1)
        if (substr(script_line[row], at, 2) in long_signs) add_token(substr(script_line[row], at, 2), 2)
        else if (index("[]<>=+*/(){},;:#-", first)) add_token(first, 1)
        else if (first == "\"") string_token(first)
        else if (first == "'") quoted_token(substr(script_line[row], at, window()))
        else if (first ~ /[A-Za-z]/) word_token(substr(script_line[row], at, window()))
        else if (first ~ /[0-9]/) number_token(substr(script_line[row], at, window()))
        else fault = "character"
    }
}

# Goes past white space and comments; whether a token follows.
function to_token(    first) {
    while (row <= rows) {
        first = substr(script_line[row], at, 1)
        if (first == " " || first == "\t" || first == "\r") at++
        else if (first == "" || (first == "/" && substr(script_line[row], at, 2) == "//")) {
            row++
            at = 1
        } else if (first != "/" || substr(script_line[row], at, 2) != "/*") return 1
        else if (!past("*/", row, at + 2)) {
            fault = "comment"
            return 0
        } else {
            row = past_row
            at = past_at
        }
    }
    return 0
}

# Finds a mark from a place on; past_row and past_at are the place after it.
function past(mark, line, from,    found) {
    for (; line <= rows; line++) {
        found = place_of(mark, script_line[line], from)
        if (found) {
            past_row = line
            past_at = found + length(mark)
            return 1
        }
        from = 1
    }
    return 0
}

# The place of a mark in a text from a place on, or 0.
function place_of(mark, text, from,    found) {
    for (; from <= length(text); from += window()) {
        found = index(substr(text, from, window() + length(mark) - 1), mark)
        if (found) return from + found - 1
    }
    return 0
}

# Takes note of a token that starts here, and goes on by so many bytes.
function add_token(form, width) {
    tokens++
    symbol[tokens] = form
    token_text[tokens] = form
    token_row[tokens] = row
    token_at[tokens] = at
    at += width
}

function word_token(piece) {
    match(piece, /^[A-Za-z0-9_.]+/)
    if (RLENGTH > 64) {
        fault = "word"
        return
    }
    add_token(substr(piece, 1, RLENGTH), RLENGTH)
    if (!(symbol[tokens] in reserved)) symbol[tokens] = "NAME"
}

function number_token(piece) {
    match(piece, /^[0-9]+([.][0-9]+)?/)
    if (RLENGTH >= window() - 1) {
        piece = substr(script_line[row], at)
        match(piece, /^[0-9]+([.][0-9]+)?/)
    }
    add_token(substr(piece, 1, RLENGTH), RLENGTH)
    symbol[tokens] = token_text[tokens] ~ /[.]/ ? "DECIMAL" : "INTEGER"
}

function quoted_token(piece,    width) {
    width = index(substr(piece, 2), "'")
    if (width < 2 || width > 65 || substr(piece, 1, width) ~ /[\001-\037\177]/) {
        fault = "quoted"
        return
    }
    add_token(substr(piece, 2, width - 1), width + 1)
    symbol[tokens] = "QUOTED_NAME"
}

# A string between two marks, which may go over several lines.
function string_token(mark,    line, from) {
    line = row
    from = at + 1
    do {
        if (!past(mark, line, from)) {
            fault = "string"
            return
        }
        line = past_row
        from = past_at + 1
    } while (substr(script_line[line], past_at, 1) == mark)
    add_token(line == row ? substr(script_line[row], at, past_at - at) : mark ".." mark, 0)
    symbol[tokens] = "STRING"
    row = line
    at = past_at
}

# Finds where statements begin and end: at each `;`, and in the definition of a ruleset after its last word.
function read_statements(    token, begins) {
    begins = 1
    for (token = 1; token <= tokens; token++) {
        if (begins) {
            statements++
            first_token[statements] = token
            begins = 0
        }
        last_token[statements] = token
        if (symbol[token] == ";" && (symbol[first_token[statements]] != "define" || symbol[token - 1] == "ruleset")) begins = 1
    }
}

# The line of a byte, by halves.
function row_of(byte,    low, high, middle) {
    low = 1
    high = rows
    while (low < high) {
        middle = int((low + high + 1) / 2)
        if (line_start[middle] <= byte) low = middle
        else high = middle - 1
    }
    return low
}

# A place of the script in words, with the column in characters.
function place_in_words(line, from,    front) {
    front = substr(script_line[line], 1, from - 1)
    if (line == 1) sub(/^\357\273\277/, "", front)
    return "line " line ", column " characters(front) + 1
}

function place_of_token(token) { return place_in_words(token_row[token], token_at[token]) }

# What stands in the script from a place to the end of the line or of the statement, which may go on.
function text_from(line, from, last,    text, ends) {
    text = substr(script_line[line], from, 400)
    ends = last && token_row[last] == line ? token_at[last] - from + length(token_text[last]) : 0
    if (ends > 0) text = substr(text, 1, ends)
    sub(/[ \t\r]+$/, "", text)
    return shown(text, 100) (last && token_row[last] > line ? " .." : "")
}

# Where a statement stands, and its first line.
function tell_statement(path, number,    token) {
    token = first_token[number]
    tell("where", shown(path, 200) ", " place_of_token(token) ", statement " number)
    tell("", text_from(token_row[token], token_at[token], number == statements && fault != "" ? 0 : last_token[number]))
}
