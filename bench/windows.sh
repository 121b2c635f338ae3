#!/bin/sh
# Times windows over 1,000,000 points, files to files: a running total, a moving average of 12 and a rank in each of 1,000
# stations, and a rank among all points, by `run` and by `sqlrun`, beside the sqlite3 shell and pandas on the same job, where
# they are installed; then sums and greatest values over frames of 10 and of 100,000 points. The figures are printed, and
# nothing is asserted of them: `run` is meant to take at most a quarter of the time of the faster of the two, `sqlrun` at
# most 1.3 times the time of `run`, and the wide frame at most twice the time of the narrow one. The program is the one that
# ../vtl builds; another may be given as the only word.
. "$(dirname -- "$(readlink -f -- "$0")")/lib.sh"

declared readings Value >"$made/structures.csv"

# Points in a mixed order, a thousand of each station, with some values that are equal.
make_points() {
    awk -v count="$1" 'BEGIN {
        print "Station,Number,Value"
        for (i = 0; i < count; i++) {
            key = (i * 700001) % count
            printf "station-%04d,%d,%d\n", int(key / 1000), key % 1000, (key * 611953) % 10007
        }
    }' >"$made/in/readings.csv"
}

# A job of the peers: the item that sqlite3 selects, the statement by which pandas makes the columns of `result`, and where
# each of them writes.
peers() {
    {
        station_table readings Value
        written_by "$3" "SELECT Station, Number, $1 FROM readings ORDER BY Station, Number;"
    } >"$made/job.sql"
    cat >"$made/job.py" <<END
import pandas
readings = pandas.read_csv('$made/in/readings.csv').sort_values(['Station', 'Number'], ignore_index=True)
assert not readings.duplicated(['Station', 'Number']).any()
result = readings[['Station', 'Number']].copy()
$2
result.to_csv('$made/out/$4', index=False)
END
}

# Tells where a peer's averages, which it spells in its own way, are not those of the program.
near() {
    for other in "$made/out/sqlite.averages" "$made/out/pandas.averages"; do
        [ ! -e "$other" ] || tr -d '\r"' <"$other" | paste -d, - "$made/out/average.csv" | awk -F, -v other="$(basename "$other")" '
            NR > 1 && ($1 != $4 || $2 != $5 || ($3 - $6) ^ 2 > 1e-11) { differs++ }
            END { if (differs) printf "    %s has %d other rows\n", other, differs }'
    done
}

job() {
    echo "$2" >"$made/script.vtl"
    raced "$1"
    in_sql "$1"
}

make_points 1000000

echo 'a running total in each of 1,000 stations'
peers 'sum(Value) OVER (PARTITION BY Station ORDER BY Number ROWS UNBOUNDED PRECEDING) AS Value' \
    "result['Value'] = readings.groupby('Station')['Value'].cumsum()" sqlite.csv pandas.csv
job total 'total <- sum(readings over (partition by Station order by Number));'

echo 'a moving average of 12 in each of 1,000 stations'
peers 'avg(Value) OVER (PARTITION BY Station ORDER BY Number ROWS 11 PRECEDING) AS Value' \
    "result['Value'] = readings.groupby('Station')['Value'].rolling(12, min_periods=1).mean().values" sqlite.averages pandas.averages
job average 'average <- avg(readings over (partition by Station order by Number data points between 11 preceding and current data point));'
near

echo 'a rank in each of 1,000 stations'
peers 'rank() OVER (PARTITION BY Station ORDER BY Value DESC) AS Place' \
    "result['Place'] = readings.groupby('Station')['Value'].rank(method='min', ascending=False).astype(int)" sqlite.csv pandas.csv
job place 'place <- readings [calc Place := rank(over (partition by Station order by Value desc))] [keep Place];'

echo 'a rank among all points'
peers 'rank() OVER (ORDER BY Value DESC) AS Place' \
    "result['Place'] = readings['Value'].rank(method='min', ascending=False).astype(int)" sqlite.csv pandas.csv
job place 'place <- readings [calc Place := rank(over (order by Value desc))] [keep Place];'

rm -f "$made/job.sql" "$made/job.py"
for call in sum max; do
    for width in 10 100000; do
        echo "$call over frames of $width points"
        echo "framed <- $call(readings over (order by Station, Number data points between $((width - 1)) preceding and current data point));" >"$made/script.vtl"
        raced framed
        mv "$made/seconds.vtl" "$made/width.$width"
    done
    paste -d' ' "$made/width.100000" "$made/width.10" | awk '$2 > 0 { printf "    the wide frame takes %.2f times the time of the narrow one\n", $1 / $2 }'
done
