#!/bin/sh
# Times operators on whole data sets, clauses, and scripts of many statements. Pairing two data sets of 1,000,000 points
# runs beside the sqlite3 shell and pandas on the same job, where they are installed. The figures are printed, and nothing
# is asserted of them. The program is the one that ../vtl builds; another may be given as the only word.
. "$(dirname -- "$(readlink -f -- "$0")")/lib.sh"

declared left Value right Value >"$made/structures.csv"

# Points in a mixed order: a data set, how many, and the steps by which its points and its values go round.
make_points() {
    awk -v count="$2" -v step="$3" -v turn="$4" 'BEGIN {
        print "Station,Number,Value"
        for (i = 0; i < count; i++) {
            key = (i * step) % count
            printf "station-%03d,%d,%d\n", int(key / 1000), key % 1000, (key * turn) % 1000003
        }
    }' >"$made/in/$1.csv"
}

# A job of this name, whose script comes on standard input, and whose result for the peers is the second word.
job() {
    cat >"$made/script.vtl"
    echo "$1"
    raced "$2"
    rm -f "$made/job.sql" "$made/job.py"
}

# The peers of a job: tables to read, the query of sqlite3, and the expression of pandas.
peers() {
    {
        for name in $1; do station_table "$name" Value; done
        written_by sqlite.csv "$2"
    } >"$made/job.sql"
    {
        echo "import pandas"
        for name in $1; do
            echo "$name = pandas.read_csv('$made/in/$name.csv', dtype={'Station': str, 'Number': 'Int64', 'Value': 'Int64'})"
            echo "assert not $name.duplicated(['Station', 'Number']).any()"
        done
        echo "total = $3"
        echo "total.sort_values(['Station', 'Number']).to_csv('$made/out/pandas.csv', index=False)"
    } >"$made/job.py"
}

make_points left 1000000 700001 611953
make_points right 1000000 300007 271829

peers left 'SELECT Station, Number, Value + 1 AS Value FROM left ORDER BY Station, Number;' 'left.assign(Value=left.Value + 1)'
echo 'total <- left + 1;' | job '+ 1 on 1,000,000 points' total

peers 'left right' 'SELECT left.Station, left.Number, left.Value + right.Value AS Value FROM left JOIN right ON left.Station = right.Station AND left.Number = right.Number ORDER BY left.Station, left.Number;' \
    "left.merge(right, on=['Station', 'Number']).assign(Value=lambda both: both.Value_x + both.Value_y)[['Station', 'Number', 'Value']]"
echo 'total <- left + right;' | job '+ on 1,000,000 points and 1,000,000 points' total

for points in 250000 500000 1000000; do
    make_points left "$points" 700001 611953
    job "three statements on $points points" double <<'END'
positive := left [ filter Value > 0 ];
doubled := positive [ calc measure Double := Value * 2 ];
double <- doubled [ keep Double ];
END
done

make_points left 10000 7001 611953
for count in 50 100 200; do
    {
        echo 'r0 := left + 1;'
        for i in $(seq 1 "$((count - 2))"); do echo "r$i := r$((i - 1)) [ calc measure Value := Value + 1 ];"; done
        echo "last <- r$((count - 2)) + left;"
    } | job "$count statements on 10,000 points" last
done
