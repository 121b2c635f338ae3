# Writes a table of cases/depth as one of cases/syntax: each nest at the most levels, which comes out as `whole`, and with
# 1, 2 and 1000 levels more, as `broken`. No field holds a line end.
BEGIN { split("1 2 1000", more, " ") }
FNR == 1 { print "text,done,byte"; next }
{
    take_fields($0)
    print nest(field[6]) "," whole
    for (i = 1; i in more; i++) print nest(field[6] + more[i]) "," broken
}

# A head, what opens a level, the middle, what closes a level, a tail.
function nest(levels) {
    return quoted(field[1] again(field[2], levels) field[3] again(field[4], levels) field[5])
}

function again(text, times,    said) {
    while (times-- > 0) said = said text
    return said
}

function quoted(text) {
    gsub(/"/, "\"\"", text)
    return "\"" text "\""
}

# The fields of a line, with quotes around them or not.
function take_fields(left,    count) {
    for (left = left ","; left != ""; left = substr(left, RLENGTH + 2)) {
        if (!match(left, /^"([^"]|"")*"/)) match(left, /^[^,]*/)
        field[++count] = unquoted(substr(left, 1, RLENGTH))
    }
}

function unquoted(text) {
    if (text !~ /^"/) return text
    text = substr(text, 2, length(text) - 2)
    gsub(/""/, "\"", text)
    return text
}
