# What is legal and hardly ever meant: a script that writes nothing, a comparison with null, names and codes with blanks
# at an end. The words of the call are the arguments.
BEGIN {
    script = ARGV[2]
    structures = ARGV[3]
    if (ENVIRON["VTL_FILES"] ~ /script /) readable[script]
    if (ENVIRON["VTL_FILES"] ~ /structures /) readable[structures]
    read_script(script)
    read_tokens()
    if (ARGV[1] ~ /^(run|sqlrun|replay)$/) of_results()
    of_comparisons()
    of_declarations()
}

# A line of a notice, of which there are few.
function notice(text) { if (++notices <= 10) print "notice:   " text }

# Whether some statement writes its result.
function of_results(    token) {
    for (token = 1; token <= tokens; token++) if (symbol[token] == "<-") return
    if (tokens) notice("no result is written, since no statement has `<-`; write `<-` for a result that is wanted in a file")
}

# A comparison with null is null, and keeps no point.
function of_comparisons(    token, sign) {
    for (token = 2; token < tokens; token++) {
        sign = symbol[token]
        if (sign !~ /^(=|<>|<|>|<=|>=)$/ || (token_text[token - 1] != "null" && token_text[token + 1] != "null")) continue
        notice(shown(script, 200) ", " place_of_token(token) ": a comparison with `null` is always null; " \
            (sign == "<>" ? "`not isnull(..)`" : "`isnull(..)`") " asks whether a value is missing")
    }
}

# Names and codes of the structures file are taken with their blanks.
function of_declarations(    list, count, i) {
    begin_records(structures)
    while (next_record()) {
        split_record()
        if (record_number == 1) take_opening()
        if (!declares()) continue
        of_blanks("data set", field[1])
        of_blanks("component", field[2])
        count = split(field[5], list, "[|]")
        for (i = 1; i <= count; i++) {
            of_blanks("code", list[i])
            if (index(list[i], ",")) notice_of_record("the code " code(list[i]) " holds a comma; codes are parted by `|`")
        }
    }
    close(source)
}

function of_blanks(what, text) {
    if (text ~ /^ /) notice_of_record("the " what " " code(text) " begins with a blank, which is part of it")
    else if (text ~ / $/) notice_of_record("the " what " " code(text) " ends with a blank, which is part of it")
}

function notice_of_record(text) { notice(shown(structures, 200) ", line " record_line ": " text) }
