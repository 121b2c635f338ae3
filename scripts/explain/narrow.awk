# Where in a statement a type fault stands. The fault of a whole statement is told by its number alone; so parts of the
# statement are tried one by one, each through `vtl sql` in place of the whole, and a part that is refused in the same words
# holds the fault. focus_from and focus_to are the tokens of the narrowest part that was found.

# The most parts that are tried: each takes some 10 ms.
function most_trials() { return 40 }

# Narrows a statement that is refused.
function narrow(number,    token) {
    statement_token = first_token[number]
    focus_from = statement_token + 2
    focus_to = last_token[number] - 1
    whole_from = focus_from
    whole_to = focus_to
    for (token = first_token[number]; token <= last_token[number]; token++) if (token_text[token] == "\"..\"") return
    if (ENVIRON["VTL_PROGRAM"] == "" || ENVIRON["VTL_ROOM"] == "" || symbol[first_token[number]] == "define") return
    # What came by a pipe cannot be read by a trial.
    if (!(structures in readable)) return
    focus_head = spelled_tokens(first_token[number], focus_from - 1)
    focus_tail = ""
    while (trials < most_trials() && narrowed_once()) ;
}

# One step to a narrower part; whether there was one.
function narrowed_once() {
    if (matching(focus_from) == focus_to && symbol[focus_from] == "(") return is_narrowed(focus_from + 1, focus_to - 1, focus_head, focus_tail)
    if (symbol[focus_to] == "]" && focus_tail == "") return in_clauses()
    if (symbol[focus_from + 1] == "(" && matching(focus_from + 1) == focus_to && focus_tail == "") return in_call()
    return focus_tail == "" ? in_operands() : 0
}

# Takes a part, whether it is refused alone or not.
function is_narrowed(from, to, head, tail) {
    focus_from = from
    focus_to = to
    focus_head = head
    focus_tail = tail
    return 1
}

# The clauses at the end of a part, cut off from the right: the first one without which nothing is refused holds the fault.
function in_clauses(    opens, groups, token, i) {
    token = focus_to
    while (token > focus_from && symbol[token] == "]") {
        opens[++groups] = matching(token)
        token = opens[groups] - 1
    }
    if (token < focus_from) return 0
    if (is_refused(focus_head, focus_from, token, "")) return is_narrowed(focus_from, token, focus_head, "")
    for (i = groups; i > 1; i--) if (is_refused(focus_head, focus_from, opens[i - 1] - 1, "")) break
    if (i == 1 && focus_to != matching(opens[1])) return 0
    return in_clause(focus_head spelled_tokens(focus_from, opens[i]), opens[i] + 1, matching(opens[i]) - 1, " ]")
}

# The items of a clause, each alone.
function in_clause(head, from, to, tail,    token, last, begins, deep) {
    is_narrowed(from, to, head, tail)
    if (symbol[from] !~ /^(calc|aggr|keep|drop|rename|sub)$/) return 0
    last = to
    for (token = from + 1; token <= to; token++) {
        deep += (symbol[token] ~ /^[[({]$/) - (symbol[token] ~ /^[])}]$/)
        if (!deep && symbol[token] ~ /^(group|having)$/) {
            last = token - 1
            break
        }
    }
    if (last < to) tail = spelled_tokens(last + 1, to) tail
    begins = from + 1
    for (token = begins; token <= last + 1; token++) {
        if (token <= last) deep += (symbol[token] ~ /^[[({]$/) - (symbol[token] ~ /^[])}]$/)
        if (token <= last && (deep || symbol[token] != ",")) continue
        if ((begins > from + 1 || token <= last) && is_refused(head symbol[from] " ", begins, token - 1, tail)) {
            return is_narrowed(begins, token - 1, head symbol[from] " ", tail)
        }
        begins = token + 1
    }
    return 0
}

# The body of a join, cut off from the right, and otherwise the operands of a call, each alone.
function in_call(    token, deep, begins, parts, i, head) {
    if (token_text[focus_from] ~ /_join$/) {
        for (token = focus_from + 2; token < focus_to; token++) {
            deep += (symbol[token] ~ /^[[({]$/) - (symbol[token] ~ /^[])}]$/)
            if (!deep && symbol[token] ~ /^(filter|calc|aggr|keep|drop|rename)$/) begins[++parts] = token
        }
        begins[parts + 1] = focus_to
        for (i = 1; i <= parts; i++) {
            if (is_refused(focus_head, focus_from, begins[i] - 1, " )")) break
        }
        if (i > 1) return in_clause(focus_head spelled_tokens(focus_from, begins[i - 1] - 1), begins[i - 1], begins[i] - 1, " )")
        if (parts) return one_of_list(focus_from + 2, begins[1] - 1)
    }
    return one_of_list(focus_from + 2, focus_to - 1)
}

# The first item of a list that is refused as a whole expression; an alias is left out.
function one_of_list(from, to,    token, begins, deep, last) {
    begins = from
    for (token = from; token <= to + 1; token++) {
        if (token <= to) deep += (symbol[token] ~ /^[[({]$/) - (symbol[token] ~ /^[])}]$/)
        if (token <= to && (deep || symbol[token] != ",")) continue
        last = symbol[token - 2] == "as" ? token - 3 : token - 1
        if (last > begins && is_refused(focus_head, begins, last, "")) return is_narrowed(begins, last, focus_head, "")
        begins = token + 1
    }
    return 0
}

# The first operand between binary operators that is refused alone.
function in_operands(    token, begins, deep, found) {
    begins = focus_from
    for (token = focus_from; token <= focus_to + 1; token++) {
        if (token <= focus_to) deep += (symbol[token] ~ /^[[({]$/) - (symbol[token] ~ /^[])}]$/)
        if (token <= focus_to && (deep || !index(operators, " " symbol[token] " "))) continue
        if (token <= focus_to) found = 1
        if (found && token - 1 > begins && is_refused(focus_head, begins, token - 1, "")) return is_narrowed(begins, token - 1, focus_head, "")
        begins = token + 1
    }
    return 0
}

# The bracket that belongs to one, forward from `(`, `[` and `{`, otherwise back; or 0.
function matching(token,    deep, step) {
    step = symbol[token] ~ /^[[({]$/ ? 1 : -1
    if (step < 0 && symbol[token] !~ /^[])}]$/) return 0
    for (; token > 0 && token <= tokens; token += step) {
        deep += (symbol[token] ~ /^[[({]$/) - (symbol[token] ~ /^[])}]$/)
        if (!deep) return token
    }
    return 0
}

# Tokens as a text again.
function spelled_tokens(from, to,    token, text) {
    for (token = from; token <= to; token++) {
        text = text (symbol[token] == "QUOTED_NAME" ? "'" token_text[token] "'" : token_text[token]) " "
    }
    return text
}

# Whether the script up to a statement of these parts is refused in the same words.
function is_refused(head, from, to, tail,    path, line, call, answer) {
    if (++trials > most_trials()) return 0
    path = ENVIRON["VTL_ROOM"] "/part.vtl"
    for (line = 1; line < token_row[statement_token]; line++) print script_line[line] > path
    print substr(script_line[line], 1, token_at[statement_token] - 1) > path
    print head spelled_tokens(from, to) tail ";" > path
    close(path)
    call = in_shell(ENVIRON["VTL_PROGRAM"]) " sql " in_shell(path) " " in_shell(structures) options_of_call() " 2>/dev/null"
    answer = ""
    call | getline answer
    close(call)
    return answer == said
}

# The options that the call has.
function options_of_call(    i, text) {
    for (i = ARGV[1] ~ /^(sql|check)$/ ? 4 : 6; i < ARGC; i++) text = text " " in_shell(ARGV[i])
    return text
}

# A word for the shell.
function in_shell(word) {
    gsub(/'/, "'\\''", word)
    return "'" word "'"
}
