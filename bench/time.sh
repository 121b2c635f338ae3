#!/bin/sh
# Times the time operators over 1,000,000 points in 4,000 monthly series, files to files, by `run` and by `sqlrun`, beside the
# sqlite3 shell and pandas on the same job, where they are installed: shifts by 12 months, fills (of 1,000,000 points, every
# fifth of the months is missing), running totals and differences. The figures are printed, and nothing is asserted of them:
# `run` is meant to take no more time than the faster of the two. The program is the one that ../vtl builds; another may be
# given as the only word.
. "$(dirname -- "$(readlink -f -- "$0")")/lib.sh"

cat >"$made/structures.csv" <<END
dataset,component,role,type,codes
flows,Series,identifier,string,
flows,Month,identifier,time_period,
flows,Value,measure,integer,
END

# So many series of 250 points in a mixed order; where a number is given, each such month is missing between the points.
make_points() {
    awk -v count="$1" -v gap="$2" 'BEGIN {
        print "Series,Month,Value"
        rows = count * 250
        for (i = 0; i < rows; i++) {
            key = (i * 700001) % rows
            series = int(key / 250)
            point = key % 250
            month = 12 * 1980 + series % 12 + (gap ? int(point * gap / (gap - 1)) : point)
            printf "s%04d,%04d-M%02d,%d\n", series, int(month / 12), month % 12 + 1, (key * 611953) % 10007
        }
    }' >"$made/in/flows.csv"
}

ordinal='CAST(substr(Month, 1, 4) AS INTEGER) * 12 + CAST(substr(Month, 7) AS INTEGER) - 1'

# A job: the call, the query of sqlite3, the statements by which pandas makes `result` of `flows` in order, whose column `at` is
# the number of the month.
job() {
    echo "$1"
    echo "result <- $1;" >"$made/script.vtl"
    {
        echo 'CREATE TABLE flows (Series TEXT NOT NULL, Month TEXT NOT NULL, Value INTEGER, PRIMARY KEY (Series, Month));'
        echo ".import --csv --skip 1 $made/in/flows.csv flows"
        written_by sqlite.csv "$2"
    } >"$made/job.sql"
    cat >"$made/job.py" <<END
import pandas
flows = pandas.read_csv('$made/in/flows.csv')
flows['at'] = flows['Month'].str[:4].astype(int) * 12 + flows['Month'].str[6:].astype(int) - 1
flows = flows.sort_values(['Series', 'at'], ignore_index=True)
assert not flows.duplicated(['Series', 'at']).any()
$3
result['Month'] = (result['at'] // 12).astype(str).str.zfill(4) + '-M' + (result['at'] % 12 + 1).astype(str).str.zfill(2)
result[['Series', 'Month', 'Value']].to_csv('$made/out/pandas.csv', index=False)
END
    raced result
    in_sql result
}

make_points 4000
job 'timeshift(flows, 12)' \
    "SELECT Series, printf('%04d-M%02d', at / 12, at % 12 + 1) AS Month, Value FROM (SELECT Series, $ordinal + 12 AS at, Value FROM flows) ORDER BY 1, 2;" \
    "flows['at'] += 12
result = flows"
job 'flow_to_stock(flows)' \
    'SELECT Series, Month, sum(Value) OVER (PARTITION BY Series ORDER BY Month ROWS UNBOUNDED PRECEDING) AS Value FROM flows ORDER BY 1, 2;' \
    "flows['Value'] = flows.groupby('Series')['Value'].cumsum()
result = flows"
job 'stock_to_flow(flows)' \
    'SELECT Series, Month, Value - lag(Value, 1, 0) OVER (PARTITION BY Series ORDER BY Month) AS Value FROM flows ORDER BY 1, 2;' \
    "flows['Value'] = flows['Value'] - flows.groupby('Series')['Value'].shift(1, fill_value=0)
result = flows"

make_points 4000 5
for extent in single all; do
    first="MIN($ordinal)"
    last="MAX($ordinal)"
    ends="flows.groupby('Series')['at'].agg(['min', 'max'])"
    if [ "$extent" = all ]; then
        first="(SELECT MIN($ordinal) FROM flows)"
        last="(SELECT MAX($ordinal) FROM flows)"
        ends="flows.groupby('Series')['at'].agg(['min', 'max']).assign(min=flows['at'].min(), max=flows['at'].max())"
    fi
    job "fill_time_series(flows, $extent)" \
        "WITH RECURSIVE spans (Series, at, last) AS (
  SELECT Series, $first, $last FROM flows GROUP BY Series
  UNION ALL SELECT Series, at + 1, last FROM spans WHERE at < last),
months AS (SELECT Series, printf('%04d-M%02d', at / 12, at % 12 + 1) AS Month FROM spans)
SELECT m.Series AS Series, m.Month AS Month, f.Value AS Value FROM months AS m LEFT JOIN flows AS f ON f.Series = m.Series AND f.Month = m.Month ORDER BY 1, 2;" \
        "keys = pandas.MultiIndex.from_tuples([(s, at) for s, (low, high) in zip($ends.index, $ends.values) for at in range(low, high + 1)], names=['Series', 'at'])
result = flows.set_index(['Series', 'at'])[['Value']].reindex(keys).astype('Int64').reset_index()"
done
