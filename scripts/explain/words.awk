# The reserved words of a kind, in order, parted by a mark: constant, function, operator or keyword.
BEGIN {
    read_grammar(ARGV[1])
    for (node = 1; node <= nodes; node++) starts_of(node)
    take("constant", "true false null")
    take("function", words_of("function_name aggregate_name value_window_name shift_name set_op_name difference_name join_kind"))
    take("function", "rank exists_in check check_datapoint check_hierarchy hierarchy cast timeshift fill_time_series flow_to_stock stock_to_flow")
    take("operator", words_of("binary_op unary_op") "in not_in")
    for (word in reserved) take("keyword", word)
    print list(kind)
}

# The words with which productions start.
function words_of(names,    name, count, i, text) {
    count = split(names, name, " ")
    for (i = 1; i <= count; i++) text = text starts_of(production[name[i]])
    return text
}

# Words are of the first kind that takes them.
function take(kind, text,    word, count, i) {
    count = split(text, word, " ")
    for (i = 1; i <= count; i++) if (word[i] ~ /^[a-z_]+$/ && !(word[i] in kind_of)) kind_of[word[i]] = kind
}

function list(kind,    word, all, count, i, text) {
    for (word in kind_of) {
        if (kind_of[word] != kind) continue
        for (i = count++; i > 0 && all[i] > word; i--) all[i + 1] = all[i]
        all[i + 1] = word
    }
    for (i = 1; i <= count; i++) text = text (i == 1 ? "" : mark) all[i]
    return text
}
