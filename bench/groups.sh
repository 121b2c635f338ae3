#!/bin/sh
# Times `sum` by groups of 1,000,000 points, files to files: 10, 1,000 and 1,000,000 groups, by `run` and by `sqlrun`, beside
# the sqlite3 shell and pandas on the same job, where they are installed. The figures are printed, and nothing is asserted of
# them: `run` is meant to take at most a quarter of the time of the faster of the two, and `sqlrun` at most 1.3 times the time
# of `run`. The program is the one that ../vtl builds; another may be given as the only word.
. "$(dirname -- "$(readlink -f -- "$0")")/lib.sh"

declared readings Value >"$made/structures.csv"

# Points in a mixed order, each with a number of its own and with one of so many stations.
make_points() {
    awk -v count="$1" -v stations="$2" 'BEGIN {
        print "Station,Number,Value"
        for (i = 0; i < count; i++) {
            key = (i * 700001) % count
            printf "station-%07d,%d,%d\n", key % stations, key, (key * 611953) % 1000003
        }
    }' >"$made/in/readings.csv"
}

# The total of each station, by the peers.
peers() {
    {
        station_table readings Value
        written_by sqlite.csv 'SELECT Station, sum(Value) AS Value FROM readings GROUP BY Station ORDER BY Station;'
    } >"$made/job.sql"
    cat >"$made/job.py" <<END
import pandas
readings = pandas.read_csv('$made/in/readings.csv')
assert not readings.duplicated(['Station', 'Number']).any()
total = readings.groupby('Station', sort=True)['Value'].sum().reset_index()
total.to_csv('$made/out/pandas.csv', index=False)
END
}

echo 'total <- sum(readings group by Station);' >"$made/script.vtl"
peers
for groups in 10 1000 1000000; do
    make_points 1000000 "$groups"
    echo "sum by $groups groups of 1,000,000 points"
    raced total
    in_sql total
done
