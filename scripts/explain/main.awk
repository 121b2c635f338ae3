# Explains the line of a status: the words of the call are the arguments, the line is in the environment.
BEGIN {
    top = ENVIRON["VTL_TOP"]
    fact = ENVIRON["VTL_FACT"]
    said = ENVIRON["VTL_SAID"]
    sub(/\n.*/, "", said)
    of_engine = ARGV[1] == "engine"
    if (ARGV[1] != "migrate") script = ARGV[2]
    if (!of_engine) structures = ARGV[1] == "migrate" ? ARGV[2] : ARGV[3]
    inputs = of_engine ? ARGV[3] : ARGV[4]
    if (ENVIRON["VTL_INPUTS"] != "") inputs = ENVIRON["VTL_INPUTS"]
    at_hand = ENVIRON["VTL_FILES"]
    if (at_hand ~ /script /) readable[script]
    if (at_hand ~ /structures /) readable[structures]
    if (at_hand ~ /edits /) readable[ARGV[5]]
    read_sentences(page("sentences.tsv"))
    explain(said)
}

# A line is told from others by its words; the parts of a line are parted by blanks.
function explain(line,    word) {
    split(line, word, " ")
    if (line == "error: usage") usage_line()
    else if (line ~ /^error: syntax after [0-9]+ statements at byte [0-9]+$/) syntax_line(word[8])
    else if (line ~ /^error: structures line [0-9]+ rule [0-9]+$/) structures_line(word[4], word[6])
    else if (line ~ /^error: edits line [0-9]+$/) edits_line(word[4])
    else if (line ~ /^error: sql syntax after [0-9]+ statements at byte [0-9]+$/) sql_syntax_line(word[5], word[9])
    else if (line ~ /^error: sql type in statement [0-9]+ rule [0-9]+$/) sql_type_line(word[6], word[8])
    else if (line ~ /^error: type in statement [0-9]+ rule [0-9]+$/) type_line(word[5], word[7])
    else if (line ~ /^error: input [^ ]+ line [0-9]+ column [0-9]+ [A-Za-z]+$/) input_line(word[3], word[5], word[7], word[8])
    else if (line ~ /^error: division by zero in /) evaluation_line("DivZero", substr(line, 28))
    else if (line ~ /^error: out of range in /) evaluation_line("Range", substr(line, 24))
    else if (line ~ /^error: not text: /) not_text_line(substr(line, 18))
    else if (line ~ /^error: no file: /) path_line("NoFile", substr(line, 17))
    else if (line ~ /^error: too long: /) path_line("TooLong", substr(line, 18))
    else if (line ~ /^error: read fault: /) path_line("ReadFault", substr(line, 20))
    else if (line ~ /^error: write fault: /) path_line("WriteFault", substr(line, 21))
    else if (line == "error: memory") tell_status("Memory")
}
