# What is told of the line of each status. The words of the call are script, structures, inputs and outputs; `fact` is what
# the launcher saw at a path.

# The script with its tokens and statements.
function take_script() {
    read_grammar(page("LANGUAGE.md"))
    read_script(script)
    read_tokens()
    read_statements()
}

# Whether the script, or the text of the dialect, cannot be read once more, since it came by a pipe; then its status is all
# that is told.
function is_gone(status) {
    if (script in readable) return 0
    tell("where", shown(script, 200))
    tell("here", "the script is no file that can be read once more")
    tell_status(status)
    return 1
}

# `error: syntax after DONE statements at byte BYTE`
function syntax_line(byte,    line, from, number, key) {
    if (is_gone("Syntax")) return
    take_script()
    line = row_of(byte)
    from = byte - line_start[line] + 1
    number = statement_at(line, from)
    if (number) {
        key = syntax_key(number)
        tell_statement(script, number)
        tell_place(key)
    } else {
        key = fault
        habit = habit_of(character())
        tell("where", shown(script, 200) ", " place_in_words(line, from))
        tell("", text_from(line, from, 0))
    }
    if (habit != "" && key != "deep" && key != "long") {
        tell("broken", broken["status", "Syntax"] ": " broken["habit", habit])
        tell("change", change["habit", habit])
        return
    }
    tell("broken", broken["status", "Syntax"] ": " broken["syntax", key] (key == "character" ? ": " character_here() : ""))
    tell("change", change["syntax", key] (meant == "" ? "" : ": is " code(meant) " meant by " code(miswritten) "?"))
}

# The statement that begins at a place, or 0.
function statement_at(line, from,    number, token) {
    for (number = statements; number > 0; number--) {
        token = first_token[number]
        if (token_row[token] == line && token_at[token] == from) break
    }
    return number
}

# Up to where a statement could be read, and what could stand there.
function tell_place(key) {
    if (key == "deep" || key == "long") return
    if (far > tokens && fault != "") tell("read", "up to " place_in_words(row, at))
    else if (far > tokens) tell("read", "up to the end of the file")
    else tell("read", "up to " code(token_text[far]) " at " place_of_token(far))
    if (fault == "" || far <= tokens) tell("expected", shown(expected(), 200))
}

# Which of the faults of a text a statement has.
function syntax_key(number) {
    if (brackets_of(number) > 127 || read_statement(first_token[number])) return "deep"
    if (steps >= most_steps) return "long"
    habit = far <= tokens ? habit_at(far) : habit_of(character())
    if (far <= tokens) return key_at(first_token[number], far)
    return fault == "" ? "end" : fault
}

# What a user of another language is used to, or VTL has and this program does not, by the token that cannot stand where it
# does: the longest row of docs/sentences.tsv whose words stand there.
function habit_at(token,    key, words, count, best, found) {
    for (key in habits) {
        count = split(key, words, " ")
        if (count > best && stands_at(words, count, token)) {
            best = count
            found = key
        }
    }
    if (found == "" && symbol[token] == "INTEGER" && symbol[token - 1] == "," && symbol[token - 2] == "INTEGER") found = "1 , 5"
    if (found == "" && symbol[token] == "(" && symbol[token - 1] == "NAME" && !is_miswritten(token - 1)) found = "function ("
    return found
}

# Whether words, letters of either case, stand next to a token or around it.
function stands_at(words, count, token,    from, i) {
    for (from = token - count; from <= token; from++) {
        for (i = 1; i <= count && tolower(token_text[from + i - 1]) == words[i]; i++) ;
        if (i > count) return 1
    }
    return 0
}

function habit_of(text) { return text in habits ? text : "" }

# The character at the place of the fault.
function character(    text) {
    text = substr(script_line[row], at, 4)
    if (match(text, /^([\302-\337].|[\340-\357]..|[\360-\364]...)/)) return substr(text, 1, RLENGTH)
    return substr(text, 1, 1)
}

# The character at the place of the fault in words: by its number where it is none of ASCII.
function character_here(    text, i, number, byte) {
    text = character()
    if (length(text) < 2) return code(text)
    for (i = 128; i < 256; i++) byte[sprintf("%c", i)] = i
    number = byte[substr(text, 1, 1)] % (length(text) == 2 ? 32 : (length(text) == 3 ? 16 : 8))
    for (i = 2; i <= length(text); i++) number = number * 64 + byte[substr(text, i, 1)] % 64
    return sprintf("U+%04X", number) (text == "\302\240" ? ", a blank that does not break" : ", " code(text))
}

# The deepest nesting of brackets in a statement.
function brackets_of(number,    token, deep, most) {
    for (token = first_token[number]; token <= last_token[number]; token++) {
        if (symbol[token] ~ /^[[({]$/ && ++deep > most) most = deep
        if (symbol[token] ~ /^[])}]$/) deep--
    }
    return most + 0
}

# Which of the faults it is, by the token that cannot stand where it does.
function key_at(first, token) {
    if (token == first + 1 && token_text[token] ~ /^[=:]$/) return "assignment"
    if (wants("NAME") && token_text[token] in reserved) return "reserved"
    if (wants(";") && symbol[token] == "NAME" && symbol[token + 1] ~ /^(:=|<-)$/) return "semicolon"
    return is_miswritten(token) || (symbol[token] == "(" && is_miswritten(token - 1)) ? "misspelt" : "other"
}

# Whether a name is nearly a word that could stand there, or nearly a function; `meant` is that word.
function is_miswritten(token,    node, words, count, i, near) {
    if (symbol[token] != "NAME") return 0
    for (node in missed) {
        count = split(starts_of(node), words, " ")
        for (i = 1; i <= count; i++) if (words[i] in reserved) near[words[i]]
    }
    miswritten = token_text[token]
    meant = token == far ? nearest(miswritten, near) : nearest(miswritten, reserved)
    return meant != ""
}

# Whether a word could stand at the farthest token.
function wants(word,    node) {
    for (node in missed) if (index(starts_of(node), " " word " ")) return 1
    return 0
}

# `error: type in statement STATEMENT rule RULE`
function type_line(number, rule) {
    if (is_gone("Mistyped")) return
    take_script()
    read_structures(structures)
    gather_names(number)
    tell_statement(script, number)
    narrow(number)
    if (focus_to - focus_from < whole_to - whole_from) tell("part", code_of_focus() " at " place_of_token(focus_from))
    if (structures in readable) {
        tell("here", names_here(number, rule))
        tell_advice(rule)
    } else {
        tell("here", "the structures file is no file that can be read once more")
        tell_rule("types", rule)
    }
}

# The narrowest part that is refused, as it stands where it stands on one line.
function code_of_focus(    text) {
    if (token_row[focus_from] != token_row[focus_to]) text = spelled_tokens(focus_from, focus_to)
    else text = substr(script_line[token_row[focus_from]], token_at[focus_from], token_at[focus_to] - token_at[focus_from] + length(token_text[focus_to]) + (symbol[focus_to] == "QUOTED_NAME" ? 2 : 0))
    sub(/ $/, "", text)
    return "`" shown(text, 100) "`"
}

# The token of the name that a statement gives: to its result, or to the ruleset that it defines.
function name_token(number,    token) {
    token = first_token[number]
    return symbol[token] == "define" ? token + 3 : token
}

# The results of statements, the rulesets, and the names that the script makes: targets, new names, aliases, and codes by `pivot`.
function gather_names(last,    number, token, component, has_pivot) {
    for (number = 1; number <= statements; number++) {
        token = name_token(number)
        if (!(token_text[token] in made_by)) made_by[token_text[token]] = number
    }
    for (token = 1; token <= last_token[last]; token++) {
        if (symbol[token] !~ /NAME$/) continue
        if (symbol[token + 1] ~ /^(:=|<-)$/ || symbol[token - 1] ~ /^(to|as|unpivot)$/) named_in[token_text[token]]
        if (symbol[token - 1] == "," && symbol[token - 3] == "unpivot") named_in[token_text[token]]
    }
    include(named_in, "bool_var int_var ruleid errorcode errorlevel imbalance")
    for (token = 1; token <= last_token[last]; token++) if (symbol[token] == "pivot") has_pivot = 1
    if (has_pivot) for (component in codes) include(named_in, codes[component], "[|]")
}

# `error: division by zero in RESULT` and `error: out of range in RESULT`
function evaluation_line(status, result,    number) {
    if (of_engine) {
        tell_tables(result)
        tell_status(status)
        return
    }
    take_script()
    for (number = 1; number <= statements; number++) if (token_text[first_token[number]] == result) tell_statement(script, number)
    tell_status(status)
}

# `error: structures line LINE rule RULE`
function structures_line(number, rule) {
    if (to_record(structures, number)) tell_record(structures)
    else tell("where", shown(structures, 200))
    if (rule == 1) tell("header", number == 2 ? "dataset,component,role,type,codes,nullable" : "dataset,component,role,type,codes; or structures,2,6,half_up,,")
    else if (rule == 7) tell_earlier(structures, number, 1, 2)
    else tell("here", declaration_fact(rule))
    tell_rule("structures", rule)
}

# The field of a declaration that breaks a rule, and the role or type that may be meant.
function declaration_fact(rule,    place, known) {
    if (rule == 2) return fields " fields"
    if (rule == 5) include(known, "identifier measure attribute")
    if (rule == 6) include(known, "integer number string boolean date time_period")
    if (rule == 11) include(known, field[3] == "identifier" ? "false" : "true false")
    place = rule == 8 ? 5 : (rule == 11 ? 6 : rule - 2)
    return rule < 9 || rule == 11 ? "field " place " is " with_nearest(field[place], known) : ""
}

# `error: edits line LINE`
function edits_line(number,    path, line, count, name) {
    path = ARGV[5]
    while (path in readable && (getline line < file_path(path)) > 0) if (++count == number) break
    tell("where", shown(path, 200) ", line " number)
    if (count == number) {
        tell("", shown(line, 100))
        read_script(script)
        read_tokens()
        read_statements()
        gather_names(statements)
        read_structures(structures)
        tell("here", edit_fact(line, path))
    }
    tell_status("Edits")
}

# What is wrong with a line of the edits file.
function edit_fact(line, path,    name, folder) {
    if (line ~ /^\357\273\277/) return "a byte order mark stands before the name"
    if (line == "") return "the line is empty"
    if (!index(line, " ")) return "no blank stands in the line"
    name = substr(line, 1, index(line, " ") - 1)
    folder = substr(line, index(line, " ") + 1)
    if (name == "") return "the line begins with a blank"
    if (!(name in declared)) return name in made_by ? code(name) " is the " of_statement(name) : with_nearest(name, declared) " is declared nowhere"
    if (!is_read(name)) return code(name) " is declared, and the script does not read it"
    if (folder == "") return "no folder stands behind the blank"
    if (folder ~ /\r$/) return "a carriage return ends the line: the file has the line ends of Windows"
    if (folder ~ /[\001-\037\177]|\302[\200-\237]/) return "a control character stands in the folder"
    return (getline line < file_path(path)) > 0 ? "" : fact
}

# Whether the script reads a data set.
function is_read(name,    token) {
    for (token = 1; token <= tokens; token++) if (symbol[token] == "NAME" && token_text[token] == name) return 1
    return 0
}

# The data sets of the structures file, or the INPUTs of a text of the SQL dialect.
function read_declarations() {
    if (of_engine) read_inputs()
    else read_structures(structures)
}

# Where a record stands, and its text.
function tell_record(path, more) {
    tell("where", "record " record_number " of " shown(path, 200) ", line " record_line more)
    tell("", shown(record, 100))
}

# The first record before this one that agrees with it in two fields.
function tell_earlier(path, number, first, second,    one, two) {
    one = field[first]
    two = field[second]
    begin_records(path)
    while (record_number < number - 1 && next_record()) {
        split_record()
        if (field[first] == one && field[second] == two) {
            tell("earlier", "line " record_line ": " shown(record, 100))
            return
        }
    }
}

# A status that names a path, with what the launcher saw there.
function path_line(status, path) {
    tell("where", shown(path, 200))
    tell("here", shown(fact, 200) (status == "NoFile" ? near_file(path) : ""))
    tell_status(status)
}

# The file of its folder that has nearly the name, and is none of another data set.
function near_file(path,    name, count, i, set, names, other) {
    sub(/.*\//, "", path)
    read_declarations()
    count = split(ENVIRON["VTL_NAMES"], name, "\n")
    for (i = 1; i <= count; i++) {
        set = name[i]
        sub(/[.]csv$/, "", set)
        if (!(set in declared)) names[name[i]]
    }
    other = nearest(path, names)
    return other == "" ? "" : "; is " code(other) " meant?"
}

# `error: not text: PATH`: the first line that is not UTF-8.
function not_text_line(path,    line, number) {
    while (path in readable && (getline line < file_path(path)) > 0) {
        number++
        if (is_text(line)) continue
        tell("where", shown(path, 200) ", line " number)
        tell("", shown(line, 100))
        break
    }
    tell_status("NotText")
}

# `error: usage`
function usage_line(    paths) {
    paths = ARGV[1] == "migrate" ? 1 : (ARGV[1] ~ /^(check|sql|lineage)$/ ? 2 : (ARGV[1] == "replay" ? 5 : 4))
    tell("here", of_engine ? engine_words_fact() : words_fact(paths))
    tell_status("Usage")
}

# What is wrong with the words after `demo`.
function points_fact() {
    if (ARGC < 3) return "no number"
    if (ARGC > 3) return quoted(ARGV[3]) " has no place after the number: `demo` takes no options"
    return quoted(ARGV[2]) " is no number from 1 to 1000000, or has a sign or a 0 before it"
}

# What is wrong with the words after `format`.
function path_fact() {
    if (ARGC < 3) return "no path"
    if (ARGV[2] == "") return "a path is empty"
    return quoted(ARGV[3]) " has no place after the path"
}

# The first word that has no place.
function words_fact(paths,    i, seen) {
    if (ARGC < 2) return "no words"
    if (ARGV[1] !~ /^(run|sqlrun|replay|sql|check|lineage|format|migrate|demo)$/) return quoted(ARGV[1]) " is no command"
    for (i = 1; i < ARGC; i++) if (!is_text(ARGV[i])) return "a word is not UTF-8"
    if (ARGV[1] == "demo") return points_fact()
    if (ARGV[1] == "format") return path_fact()
    for (i = 2; i < ARGC && i < paths + 2; i++) {
        if (ARGV[i] ~ /^--(scale|round)$/) return quoted(ARGV[i]) " stands for a path"
        if (ARGV[i] == "") return "a path is empty"
    }
    if (ARGC < paths + 2) return (ARGC - 2) " of " paths " paths"
    for (i = paths + 2; i < ARGC; i += 2) {
        if (ARGV[i] !~ /^--(scale|round)$/) return quoted(ARGV[i]) " is no option"
        if (ARGV[i] in seen) return quoted(ARGV[i]) " stands twice"
        seen[ARGV[i]]
        if (i + 1 == ARGC) return quoted(ARGV[i]) " has nothing after it"
        if (ARGV[i] == "--scale" && ARGV[i + 1] !~ /^[0-9]$/) return quoted(ARGV[i + 1]) " is no number of digits, 0 to 9"
        if (ARGV[i] == "--round" && ARGV[i + 1] !~ /^(half_up|half_even|down)$/) return quoted(ARGV[i + 1]) " is no rounding"
    }
    return ""
}
