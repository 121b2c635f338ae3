#!/bin/sh
# Times the reading of scripts of the largest size, 65,536 bytes, in shapes that are hard for a reader.
# The times are printed with the line that the program answers, and nothing is asserted of them.
# The program is the one that ../vtl builds; another may be given as the only word.
. "$(dirname -- "$(readlink -f -- "$0")")/lib.sh"

# A text of 65,536 bytes: a beginning, one piece again and again, and an end behind it.
text() {
    awk -v front="$1" -v piece="$2" -v back="$3" 'BEGIN {
        room = 65536 - length(front) - length(back)
        body = ""
        while (length(body) + length(piece) <= room) body = body piece
        while (length(body) < room) body = body " "
        printf "%s%s%s", front, body, back
    }'
}

# Names the shape, and runs the program over such a text; there is no structures file, so that a script that is read is answered with another line.
time_shape() {
    text "$2" "$3" "$4" >"$made/script.vtl" || exit 1
    start=$(date +%s%N)
    line=$("$program" run "$made/script.vtl" "$made/none.csv" "$made" "$made")
    end=$(date +%s%N)
    printf '%-28s %6d ms  %s\n' "$1" $(((end - start) / 1000000)) "$(echo "$line" | sed "s#$made/##")"
}

time_shape 'opening brackets' 'R <- ' '(' ''
time_shape 'signs' 'R <- ' '-' 'a;'
time_shape 'not' 'R <- ' 'not ' 'a;'
time_shape 'if' 'R <- ' 'if ' 'a;'
time_shape 'else if' 'R <- ' 'if a then b else ' 'c;'
time_shape 'calls' 'R <- ' 'abs(' 'a;'
time_shape 'clauses inside clauses' 'R <- a' '[filter a' ';'
time_shape 'clauses one by one' 'R <- a' '[filter b]' ';'
time_shape 'members' 'R <- a' '#b' ';'
time_shape 'a chain of +' 'R <- a' '+a' ';'
time_shape 'a chain of ||' 'R <- a' '||a' ';'
time_shape 'a chain of and, or' 'R <- a' ' and a or a' ';'
time_shape 'a chain of in' 'R <- a' ' in {1}' ';'
time_shape 'a set of literals' 'R <- a in {1' ',1' '};'
time_shape 'operands' 'R <- union(a' ',a' ');'
time_shape 'operands that are calls' 'R <- union(a' ',abs(a)' ');'
time_shape 'a list of keep' 'R <- a[keep b' ',b' '];'
time_shape 'a list of calc' 'R <- a[calc b := 1' ',b := 1' '];'
time_shape 'statements' '' 'R <- a;' ''
time_shape 'statements, then a fault' '' 'R <- a;' '!'
time_shape 'rules' 'define datapoint ruleset d (variable a) is a' ';a' ' end datapoint ruleset;'
time_shape 'rules without an end' 'define datapoint ruleset d (variable a) is a' ';a' ''
time_shape 'hierarchical rules' 'define hierarchical ruleset h (variable rule a) is a=b' ';a=b' ' end hierarchical ruleset;'
time_shape 'items of a rule' 'define hierarchical ruleset h (variable rule a) is a=b' '+b' ' end hierarchical ruleset;'
time_shape 'white space' 'R <- a;' ' ' ''
time_shape 'comments' 'R <- a;' '/**/' ''
time_shape 'a comment without an end' 'R <- a;/*' '/*' ''
time_shape 'slashes' 'R <- ' '/' ''
time_shape 'quotes' 'R <- ' '"' ''
time_shape 'single quotes' 'R <- ' "'" ''
time_shape 'words of 65 bytes' 'R <- ' 'aaaaaaaaaaaaaaaaaaaaaaaaaaaaaaaaaaaaaaaaaaaaaaaaaaaaaaaaaaaaaaaaa ' ''
time_shape 'digits' 'R <- ' '1' ';'
