#!/bin/sh
# Times runs of the program over up to a million rows, beside the sqlite3 shell and pandas on the same job where they are
# installed. The figures are printed, and nothing is asserted of them.
# The job: read the rows, check their identifiers, filter, sort by the identifiers, write. The program is the one that
# ../vtl builds; another may be given as the only word.
. "$(dirname -- "$(readlink -f -- "$0")")/lib.sh"

printf 'large <- readings [filter Value > 500000];\n' >"$made/script.vtl"
cat >"$made/structures.csv" <<'END'
dataset,component,role,type,codes
readings,Station,identifier,string,
readings,Number,identifier,string,
readings,Value,measure,integer,
END

{
    echo "CREATE TABLE readings (Station TEXT NOT NULL, Number TEXT NOT NULL, Value INTEGER, PRIMARY KEY (Station, Number));"
    echo ".import --csv --skip 1 $made/in/readings.csv readings"
    written_by sqlite.csv 'SELECT * FROM readings WHERE Value > 500000 ORDER BY Station, Number;'
} >"$made/job.sql"

cat >"$made/job.py" <<END
import pandas
rows = pandas.read_csv("$made/in/readings.csv", dtype={"Station": str, "Number": str, "Value": "Int64"})
assert not rows.duplicated(["Station", "Number"]).any()
rows[rows.Value > 500000].sort_values(["Station", "Number"]).to_csv("$made/out/pandas.csv", index=False)
END

# Rows in a mixed order, since 700001 and the number of rows have no common divisor: for `mixed` a thousand numbers for
# each station, for `ordered` the same in the order of the identifiers, for `distinct` keys of 12 bytes.
make_rows() {
    awk -v count="$1" -v kind="$2" 'BEGIN {
        print "Station,Number,Value"
        for (i = 0; i < count; i++) {
            key = kind == "ordered" ? i : (i * 700001) % count
            value = (i * 611953) % 1000003
            if (kind == "distinct") printf "k%011.0f,0,%d\n", key * 7919, value
            else printf "station-%03d,%03d,%d\n", int(key / 1000), key % 1000, value
        }
    }' >"$made/in/readings.csv"
}

# The job over rows of a kind, by the program and by each peer.
job() {
    make_rows "$1" "$2" || exit 1
    echo "$1 rows, $2: $(wc -c <"$made/in/readings.csv") bytes"
    raced large
}

job 250000 mixed
job 500000 mixed
job 1000000 mixed
job 1000000 distinct
job 1000000 ordered
