# Reads a table of cases/sql/syntax by the grammar of docs/SQL.md as scripts/explain takes it, and prints each case that comes
# out otherwise, and then how many did not and did.
BEGIN {
    path = ARGV[1]
    readable[path]
    top = "."
    read_sql_grammar()
    begin_records(path)
    next_record()
    while (next_record()) {
        split_record()
        if (answer_of(field[1]) == field[2] "," field[3]) same++
        else print path ": " record_number - 1 ": " answer_of(field[1])
    }
    print same + 0 " passed, " record_number - 1 - same " failed"
}

# How many statements a text has, and the byte of the first fault.
function answer_of(text,    number, token) {
    take_text(text)
    for (number = 1; number <= statements; number++) {
        token = first_token[number]
        split("", read_before)
        if (read_form(statement_form(number - 1), token) == last_token[number] + 1) continue
        return number - 1 "," byte_of(token_row[token], token_at[token])
    }
    if (fault != "") return statements "," byte_of(row, at)
    return statements "," (statements ? "" : length(text))
}

function byte_of(line, from) { return line_start[line] + from - 1 }

function take_text(text,    i) {
    tokens = statements = 0
    fault = ""
    split("", symbol)
    rows = split(text, script_line, "\n")
    line_start[1] = 0
    for (i = 2; i <= rows; i++) line_start[i] = line_start[i - 1] + length(script_line[i - 1]) + 1
    row = at = 1
    read_sql_tokens(0)
    read_statements()
}
