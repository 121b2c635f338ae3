# What is told of the lines of the command `engine`, whose words are script, inputs and outputs.

# `error: sql syntax after DONE statements at byte BYTE`
function sql_syntax_line(done, byte,    key) {
    if (is_gone("SqlSyntax")) return
    read_sql_grammar()
    read_script(script)
    row = row_of(byte)
    at = byte - line_start[row] + 1
    tell("where", shown(script, 200) ", " place_in_words(row, at) ", statement " done + 1)
    tell_rest(row, at)
    read_sql_tokens(1)
    read_statements()
    key = sql_syntax_key(done)
    tell_place(key)
    tell("broken", broken["status", "SqlSyntax"] ": " broken["sql_syntax", key])
    tell("change", change["sql_syntax", key] (meant == "" ? "" : ": is " code(meant) " meant by " code(miswritten) "?"))
}

# What stands in the text from a place on: the rest of its line, and six lines more at most, up to the end of the statement.
function tell_rest(line, from,    last, most) {
    last = line + 6
    most = rows
    for (; line <= last && line <= most; line++) {
        tell("", shown(substr(script_line[line], from, 400), 100))
        if (script_line[line] ~ /;[ \t\r]*$/) return
        from = 1
    }
    if (line <= most) tell("", "..")
}

# Which of the faults of a text the statement has.
function sql_syntax_key(done) {
    if (brackets_of(1) > 511 || read_form(statement_form(done), 1)) return "deep"
    if (steps >= most_steps) return "long"
    if (far <= tokens) return sql_key_at(far)
    if (fault == "") return tokens ? "end" : "setting"
    return is_comment(tokens) ? "comment" : fault_here()
}

# Which of the faults it is, by the token that cannot stand where it does.
function sql_key_at(token) {
    if (wants("SET") || (token == 1 && symbol[token] == "SET")) return "setting"
    if (is_comment(token) || is_comment(token + 1)) return "comment"
    return wants(";") && symbol[token] ~ /^(INPUT|CREATE|EXPORT)$/ ? "semicolon" : "other"
}

# Whether the last of two tokens ends a mark of a comment.
function is_comment(token) {
    return symbol[token - 1] symbol[token] ~ /^(--|\/\*)$/ && token_at[token - 1] + 1 == token_at[token]
}

# The fault at a byte from which no token starts; of a word also the keyword that may be meant.
function fault_here() {
    if (fault == "word") {
        match(substr(script_line[row], at, 64), /^[A-Za-z0-9_]+/)
        miswritten = substr(script_line[row], at, RLENGTH)
        meant = nearest(miswritten, reserved)
    }
    return fault
}

# `error: sql type in statement STATEMENT rule RULE`
function sql_type_line(number, rule) {
    if (is_gone("SqlType")) return
    take_sql()
    gather_tables(number - 1)
    tell_sql_statement(number)
    tell("here", shown(sql_names_here(number, rule), 300))
    tell("broken", "rule " rule " asks: " broken["sql", rule])
    tell("example", example["sql", rule])
    tell("change", change["sql", rule])
}

# Where a statement stands, and its first lines.
function tell_sql_statement(number,    token) {
    token = first_token[number]
    tell("where", shown(script, 200) ", " place_of_token(token) ", statement " number)
    tell_rest(token_row[token], token_at[token])
}

# What is known of the names of a statement, as far as it helps with the rule.
function sql_names_here(number, rule,    token, told, first, end) {
    first = first_token[number]
    end = last_token[number]
    if (rule == 2) told = name_fact(first, token_text[first + (symbol[first] == "CREATE" ? 2 : 1)])
    if (rule == 4 && symbol[first] == "EXPORT") told = listed_fact(first + 2, end, token_text[first + 1])
    else if (rule == 4) told = columns_fact(first, end)
    for (token = first; token <= end; token++) {
        if (rule == 1) told = with_fact(told, unknown_table(token))
        if (rule == 13) told = with_fact(told, series_fact(token))
    }
    gather_aliases(first, end)
    if (rule == 2) told = with_fact(told, twice)
    for (token = first; token <= end; token++) {
        if (symbol[token] != "." || (token_text[token - 1], token_text[token + 1]) in told_of) continue
        told_of[token_text[token - 1], token_text[token + 1]]
        if (rule == 3) told = with_fact(told, unknown_column(token_text[token - 1], token_text[token + 1]))
        if (rule ~ /^(5|7|11)$/) told = with_fact(told, kind_here(token_text[token - 1], token_text[token + 1]))
    }
    return told
}

# Why a statement may not give a table its name, or not export it.
function name_fact(first, table,    number) {
    if (symbol[first] != "CREATE" && (table !~ /^[A-Za-z][A-Za-z0-9_.]*$/ || length(table) > 64)) return code(table) " is no word"
    if (symbol[first] != "EXPORT") return table in made_by ? code(table) " is made by statement " made_by[table] : ""
    for (number = 1; first_token[number] < first; number++) {
        if (symbol[first_token[number]] != "EXPORT" || token_text[first_token[number] + 1] != table) continue
        return code(table) " is exported by statement " number
    }
    return ""
}

# The columns that a statement names twice; those of a KEY, which are to be columns of the INPUT.
function columns_fact(token, end,    names, count, i, seen, told, of_input) {
    of_input = symbol[token] == "INPUT"
    if (of_input) input_columns("", token + 2, end)
    else query_columns("", token + 4, end)
    count = split(columns[""], names, "\n")
    for (i = 1; i < count; i++) {
        if (names[i] in seen) told = with_fact(told, code(names[i]) " stands twice")
        seen[names[i]]
    }
    while (of_input && symbol[token] != "KEY") token++
    return of_input ? with_fact(told, listed_fact(token, end, "")) : told
}

# Of names that are listed those that stand twice, and those that are no columns of a table.
function listed_fact(token, end, table,    names, seen, told, name) {
    if (!(table in columns)) return ""
    include(names, columns[table], "\n")
    delete names[""]
    for (; token < end; token++) {
        if (symbol[token] != "name") continue
        name = token_text[token]
        if (name in seen) told = with_fact(told, code(name) " stands twice")
        else if (!(name in names)) told = with_fact(told, with_nearest(name, names) " is no column")
        seen[name]
    }
    return told
}

# A source or an export that no statement further up makes.
function unknown_table(token,    name) {
    name = token_text[token + 1]
    if (symbol[token] !~ /^(FROM|JOIN|SERIES|EXPORT)$/ || symbol[token + 1] != "name" || name in made_by) return ""
    return with_nearest(name, made_by) " is made by no statement further up"
}

# Where the list of a SERIES ends, behind its token.
function series_end(token) {
    while (symbol[token] !~ /^(SINGLE|ALL|;)$/ && token < tokens) token++
    return token
}

# What a SERIES names that its table lacks, or twice, and the kind of its ON where that is told and no PERIOD.
function series_fact(token,    table, on, end, told) {
    if (symbol[token] != "SERIES") return ""
    table = token_text[token + 1]
    on = token_text[token + 3]
    end = series_end(token)
    told = listed_fact(token + 2, end, table)
    if ((table, on) in kind && kind[table, on] != "PERIOD") told = with_fact(told, code(on) " is " kind[table, on])
    return told
}

# The columns of a SERIES, with a line feed after each.
function series_columns(token,    end, list) {
    end = series_end(token)
    for (token += 2; token < end; token++) if (symbol[token] == "name") list = list token_text[token] "\n"
    return list
}

# The table of each alias of a statement, or none where two selects use it for different ones; `twice` tells an alias that
# comes twice in a select.
function gather_aliases(token, end,    alias, table, in_select, series, as) {
    for (; token <= end; token++) {
        if (symbol[token] == "SELECT" && symbol[token - 2] != "EXISTS") split("", in_select)
        if (symbol[token] !~ /^(FROM|JOIN)$/) continue
        series = symbol[token + 1] == "SERIES"
        as = series ? series_end(token + 1) + 1 : token + 2
        if (symbol[as] != "AS") continue
        table = token_text[token + 1 + series]
        alias = token_text[as + 1]
        if (alias in in_select && symbol[token - 4] != "EXISTS") twice = code(alias) " stands twice"
        if (symbol[token - 4] != "EXISTS") in_select[alias]
        if (series) series_of[alias] = series_columns(token + 1)
        if (!(alias in source_of)) source_of[alias] = table
        else if (source_of[alias] != table) source_of[alias] = ""
    }
}

# An alias of no source, or a column that its table lacks.
function unknown_column(alias, column,    table, names) {
    if (!(alias in source_of)) return with_nearest(alias, source_of) " is no alias of this statement"
    table = source_of[alias]
    if (!(table in columns)) return ""
    include(names, alias in series_of ? series_of[alias] : columns[table], "\n")
    delete names[""]
    return column in names ? "" : (alias in series_of ? "the SERIES " code(alias) : code(table)) " has no column " with_nearest(column, names)
}

# The kind of a column of an INPUT.
function kind_here(alias, column,    table) {
    table = alias in source_of ? source_of[alias] : ""
    return (table, column) in kind ? code(alias "." column) " is " kind[table, column] : ""
}

# The CREATEs of a name up to the first `$`: the one with its statement, more of them by their names.
function tell_tables(name,    number, table, front, found, names) {
    take_sql()
    for (number = 1; number <= statements; number++) {
        if (symbol[first_token[number]] != "CREATE") continue
        table = front = token_text[first_token[number] + 2]
        sub(/[$].*/, "", front)
        if (front != name) continue
        found = found ? -1 : number
        names = joined(names, code(table))
    }
    if (found > 0) tell_sql_statement(found)
    else {
        tell("where", shown(script, 200))
        if (names != "") tell("here", "the first fault is in one of these tables: " shown(names, 200))
    }
}

# The first word after `engine` that has no place.
function engine_words_fact(    i) {
    for (i = 1; i < ARGC; i++) if (!is_text(ARGV[i])) return "a word is not UTF-8"
    if (ARGC > 5) return quoted(ARGV[5]) " has no place after three paths: `engine` takes no options"
    if (ARGC < 5) return (ARGC - 2) " of 3 paths"
    for (i = 2; i < ARGC; i++) if (ARGV[i] == "") return "a path is empty"
    return ""
}
