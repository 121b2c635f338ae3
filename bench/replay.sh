#!/bin/sh
# Times a refresh of a replay beside a whole run: a script over 40 data sets of 50,000 points, of which one is replaced. The
# figures are printed, and nothing is asserted of them.
# A refresh is what ten edits take more than none, by ten: it reads the file that is replaced, checks its identifiers, and runs the
# two of the 60 statements that depend on it. The program is the one that ../vtl builds; another may be given as the only word.
. "$(dirname -- "$(readlink -f -- "$0")")/lib.sh"

SETS=40
POINTS=50000
EDITS=10

# Data sets readings1, readings2 and so on, each two with a sum of their own.
for i in $(seq "$SETS"); do
    echo "level$i := readings$i[filter Value > 1000][calc Value := Value * 2 + $i];"
    [ $((i % 2)) = 1 ] || echo "both$((i / 2)) <- sum(level$((i - 1)) + level$i group by Station);"
done >"$made/script.vtl"

# shellcheck disable=SC2046 # a name and a measure for each
declared $(for i in $(seq "$SETS"); do echo "readings$i Value"; done) >"$made/structures.csv"

# Points in a mixed order, since 700001 and their number have no common divisor.
make_points() {
    awk -v count="$POINTS" -v first="$2" 'BEGIN {
        print "Station,Number,Value"
        for (i = 0; i < count; i++) {
            key = (i * 700001) % count
            printf "station-%03d,%d,%d\n", int(key / 1000), key % 1000, ((key + first) * 611953) % 1000003
        }
    }' >"$1"
}

for i in $(seq "$SETS"); do make_points "$made/in/readings$i.csv" "$i"; done
mkdir "$made/again"
make_points "$made/again/readings20.csv" 777
: >"$made/none"
for _ in $(seq "$EDITS"); do echo "readings20 $made/again"; done >"$made/edits"

echo "$SETS data sets of $POINTS points"
timed run "$program" run "$made/script.vtl" "$made/structures.csv" "$made/in" "$made/out" || cat "$made/said"
timed none "$program" replay "$made/script.vtl" "$made/structures.csv" "$made/in" "$made/none" "$made/out" || cat "$made/said"
timed edits "$program" replay "$made/script.vtl" "$made/structures.csv" "$made/in" "$made/edits" "$made/out" || cat "$made/said"
tail -n 1 "$made/said"
[ -s "$made/seconds.edits" ] && paste -d' ' "$made/seconds.run" "$made/seconds.none" "$made/seconds.edits" |
    awk -v edits="$EDITS" '{
        refresh = ($3 - $2) / edits
        printf "    a refresh %6.3f s", refresh
        if (refresh > 0) printf ", a whole run takes %.0f times as long", $1 / refresh
        print ""
    }'
