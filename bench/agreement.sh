#!/bin/sh
# Times scripts by `sqlrun` beside `run`: the same script over the same files, by its text in SQL and interpreted. Prints the
# processor seconds of both, the least of three runs in turn, and how many times as long `sqlrun` takes, which is meant to be
# at most 1.3; and tells where the two have not written the same. Nothing is asserted. The program is the one that ../vtl
# builds; another may be given as the only word.
# Both commands are run in turn, three times, by this script itself.
RUNS=1
. "$(dirname -- "$(readlink -f -- "$0")")/lib.sh"

declared readings Value others Value >"$made/structures.csv"
cat >>"$made/structures.csv" <<'END'
wide,Station,identifier,string,
wide,Number,identifier,integer,
wide,A,measure,number,
wide,B,measure,number,
wide,C,measure,number,
coded,Station,identifier,string,
coded,Number,identifier,integer,
coded,Code,identifier,string,A|B|C
coded,Value,measure,number,
END

# Points in a mixed order: a data set, its columns behind two identifiers, how many points, and a statement of awk that
# prints what stands in these columns of the point with the number `key`.
make_points() {
    awk "BEGIN {
        print \"Station,Number,$2\"
        for (i = 0; i < $3; i++) {
            key = (i * 700001) % $3
            printf \"station-%03d,%d,\", int(key / 1000), key % 1000
            $4
        }
    }" >"$made/in/$1.csv"
}

# A run by a command into a folder of its own; its processor seconds are left in a file.
timed_run() {
    rm -rf "${made:?}/$1"
    mkdir "$made/$1"
    timed "$1" "$program" "$1" "$made/script.vtl" "$made/structures.csv" "$made/in" "$made/$1" >/dev/null
}

# The least of the seconds that runs by a command took.
least() { sort -n "$made/all.$1" | head -n 1; }

# A job of this name, whose script comes on standard input.
job() {
    cat >"$made/script.vtl"
    rm -f "$made"/all.*
    for _ in 1 2 3; do
        for command in run sqlrun; do
            if ! timed_run "$command"; then
                echo "$1: $command: $(head -n 1 "$made/said")"
                return
            fi
            cat "$made/seconds.$command" >>"$made/all.$command"
        done
    done
    echo "$1;$(least run);$(least sqlrun)" | awk -F ';' '{
        printf "%-52s %8.2f %8.2f %8s\n", $1, $2, $3, ($2 > 0 ? sprintf("%.2f", $3 / $2) : "-")
    }'
    diff -rq "$made/run" "$made/sqlrun"
}

printf '%-52s %8s %8s %8s\n' job run sqlrun times
value='printf "%d\n", (key * 611953) % 1000003'
make_points readings Value 1000000 "$value"
echo 'r <- readings [filter Value > 500000];' | job 'a filter of 1,000,000 points'
echo 'r <- readings + 1;' | job '+ 1 on 1,000,000 points'
echo 'r <- readings [calc Double := Value * 2, Text := Station || "-x"];' | job 'calc of two targets on 1,000,000 points'
job 'three statements on 1,000,000 points' <<'END'
positive := readings [filter Value > 0];
doubled := positive [calc measure Double := Value * 2];
r <- doubled [keep Double];
END
echo 'r <- readings [sub Station = "station-007"];' | job 'sub of 1,000,000 points'
make_points readings Value 10000 "$value"
{
    echo 'r0 := readings + 1;'
    for i in $(seq 1 198); do echo "r$i := r$((i - 1)) [calc measure Value := Value + 1];"; done
    echo 'r <- r198;'
} | job '200 statements on 10,000 points'
make_points wide A,B,C 300000 'printf "%.1f,%.2f,%s\n", key / 10, key / 100, key % 3 ? key : ""'
echo 'r <- wide [unpivot Code, Value];' | job 'unpivot of 300,000 points'
make_points coded Code,Value 300000 'printf "%s,%.1f\n", substr("ABC", key % 3 + 1, 1), key / 10'
echo 'r <- coded [pivot Code, Value];' | job 'pivot of 300,000 points'

make_points readings Value 1000000 "$value"
make_points others Value 1000000 "$value"
echo 'r <- readings + others;' | job '+ on 1,000,000 and 1,000,000 points'
echo 'r <- inner_join(readings, others [rename Value to Other] as o);' | job 'inner_join of 1,000,000 with 1,000,000 points'
echo 'r <- left_join(readings, others [rename Value to Other] as o);' | job 'left_join of 1,000,000 with 1,000,000 points'
echo 'r <- full_join(readings, others [rename Value to Other] as o);' | job 'full_join of 1,000,000 with 1,000,000 points'
echo 'r <- union(readings, others);' | job 'union of 1,000,000 with 1,000,000 points'
echo 'r <- setdiff(readings, others);' | job 'setdiff of 1,000,000 and 1,000,000 points'
echo 'r <- exists_in(readings, others, true);' | job 'exists_in of 1,000,000 in 1,000,000 points'
