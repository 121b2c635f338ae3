# The tokens, statements and tables of a text of the SQL dialect, by the forms of docs/SQL.md. Tokens and statements stand in
# the arrays of script.awk, a name without its quotes. made_by[table] is the statement that makes a table, columns[table] its
# columns with a line feed after each, kind[table, column] the kind of a column of an INPUT.

# Reads the grammar of the dialect.
function read_sql_grammar(    node) {
    read_productions(page("SQL.md"))
    spoken["name"] = "a name in quotes"
    spoken["text"] = "a text"
    spoken["int"] = "an integer"
    spoken["dec"] = "a number"
    for (node = 1; node <= nodes; node++) if (form[node] == "name" && spelling[node] in spoken) form[node] = "word"
    operators = " OR XOR AND = <> < <= > >= IS NOT IN + - || * / "
    begins_expression = "CASE"
}

# The part of the grammar that a statement is to be after so many others: what stands in the braces of a script, or SET.
function statement_form(done,    list) {
    list = kid[production["script"], 1]
    return done ? kid[kid[list, 2], 1] : kid[list, 1]
}

# Reads the text with its tokens and statements.
function take_sql() {
    read_sql_grammar()
    read_script(script)
    row = at = 1
    read_sql_tokens(0)
    read_statements()
}

# Reads the tokens from a place on up to the first byte from which none starts, or up to a `;` where only one statement is
# wanted.
function read_sql_tokens(only_one,    first, piece) {
    include(long_signs, "<> <= >= ||")
    while (fault == "" && to_sql_token()) {
        first = substr(script_line[row], at, 1)
        piece = substr(script_line[row], at, first == "\"" ? 2 * window() : 64)
        if (substr(piece, 1, 2) in long_signs) add_token(substr(piece, 1, 2), 2)
        else if (index("<>=+-*/(),;.", first)) add_token(first, 1)
        else if (first == "'") sql_text(first)
        else if (first == "\"") sql_name(piece)
        else if (first ~ /[A-Za-z]/) sql_keyword(piece)
        else if (first ~ /[0-9]/) sql_number(substr(script_line[row], at, window()))
        else fault = "character"
        if (only_one && symbol[tokens] == ";") return
    }
}

# Goes past white space; whether a token follows.
function to_sql_token(    first) {
    while (row <= rows) {
        first = substr(script_line[row], at, 1)
        if (first == "") {
            row++
            at = 1
        } else if (first ~ /[ \t\r]/) at++
        else return 1
    }
    return 0
}

# The longest keyword that starts here.
function sql_keyword(piece,    width) {
    match(piece, /^[A-Z_]*/)
    for (width = RLENGTH; width > 0 && !(substr(piece, 1, width) in reserved); width--) ;
    if (width) add_token(substr(piece, 1, width), width)
    else fault = "word"
}

function sql_text(mark) {
    string_token(mark)
    if (fault == "") symbol[tokens] = "text"
}

function sql_name(piece,    width, text) {
    match(piece, /^"([^"]|"")*"/)
    width = RLENGTH
    text = substr(piece, 2, width - 2)
    gsub(/""/, "\"", text)
    if (width < 3 || length(text) > 256 || text ~ /[^ -~\200-\377]|\302[\200-\237]/) {
        fault = "quoted"
        return
    }
    add_token(text, width)
    symbol[tokens] = "name"
}

# A number; the 1 of an EXISTS is a word of the grammar.
function sql_number(piece) {
    number_token(piece)
    symbol[tokens] = token_text[tokens] ~ /[.]/ ? "dec" : "int"
    if (token_text[tokens] == "1" && symbol[tokens - 1] == "SELECT" && symbol[tokens - 3] == "EXISTS") symbol[tokens] = "1"
}

# The tables of the first statements, each with the columns that can be told from its statement alone.
function gather_tables(last,    number, token, first, name) {
    for (number = 1; number <= last && number <= statements; number++) {
        first = first_token[number]
        if (symbol[first] !~ /^(INPUT|CREATE)$/) continue
        name = token_text[first + (symbol[first] == "INPUT" ? 1 : 2)]
        if (name in made_by) continue
        made_by[name] = number
        if (symbol[first] == "INPUT") input_columns(name, first + 2, last_token[number])
        else query_columns(name, first + 4, last_token[number])
    }
}

# The columns of an INPUT, those of its KEY, and codes, as a structures file has them.
function input_columns(table, token, end,    name, in_key) {
    for (; token < end; token++) {
        if (symbol[token] == "KEY") in_key = 1
        if (symbol[token] == "text") codes[table, name] = joined_by(codes[table, name], text_of(token_text[token]), "|")
        if (symbol[token] != "name") continue
        name = token_text[token]
        if (in_key) role[table, name] = "identifier"
        else {
            columns[table] = columns[table] name "\n"
            kind[table, name] = symbol[token + 1]
        }
    }
}

# A text without its marks.
function text_of(token) {
    token = substr(token, 2, length(token) - 2)
    gsub(/''/, "'", token)
    return token
}

function joined_by(list, item, mark) { return list == "" ? item : list mark item }

# The columns of a query: what its first select names by AS, before its FROM.
function query_columns(table, token, end,    deep) {
    for (; token < end && (deep || symbol[token] != "FROM"); token++) {
        if (symbol[token] == "(") deep++
        if (symbol[token] == ")") deep--
        if (symbol[token] == "AS" && !deep) columns[table] = columns[table] token_text[token + 1] "\n"
    }
}

# The INPUTs, as the data sets of a structures file.
function read_inputs(    table, name, count, names, i, word) {
    word["TEXT"] = "string"
    word["PERIOD"] = "time_period"
    take_sql()
    gather_tables(statements)
    for (table in made_by) {
        if (symbol[first_token[made_by[table]]] != "INPUT") continue
        declared[table] = columns[table]
        count = split(columns[table], names, "\n")
        for (i = 1; i < count; i++) {
            name = kind[table, names[i]]
            type[table, names[i]] = name in word ? word[name] : tolower(name)
        }
    }
}
