#!/bin/sh
# Times texts of the SQL dialect, run by the command `engine`, files to files, beside the sqlite3 shell on the same files
# and the same queries, where it is installed; each with half the rows and with all. The figures are printed, and nothing
# is asserted of them. Twice the rows are meant to take at most 2.3 times the time, those of a join too: one that tries
# each row with each takes four times the time. The program is the one that ../vtl builds; another may be given as the
# only word.
. "$(dirname -- "$(readlink -f -- "$0")")/lib.sh"

# Rows in a mixed order, with a key, a text and a number that make 1,000 pairs, and a value.
make_rows() {
    awk -v count="$1" 'BEGIN {
        print "Id,Station,Hour,Value"
        for (i = 0; i < count; i++) {
            id = (i * 700001) % count
            pair = (id * 611953) % 1000
            printf "%d,station-%02d,%d,%d\n", id, int(pair / 20), pair % 20, (id * 611953) % 1000003
        }
    }' >"$made/in/readings.csv"
}

# Rows with a number each, every one once, in a mixed order; half of the numbers of one table are in the other.
make_numbers() {
    awk -v count="$2" -v step="$3" -v first="$4" 'BEGIN {
        print "Id,Number"
        for (i = 0; i < count; i++) printf "%d,%d\n", (i * 7001) % count, first + (i * step) % count
    }' >"$made/in/$1.csv"
}

readings='"Id" INTEGER, "Station" TEXT, "Hour" INTEGER, "Value" INTEGER'
numbers='"Id" INTEGER, "Number" INTEGER'

# The names of tables, each before its columns, as INPUTs and as tables of sqlite3.
inputs() {
    for name in $1; do printf 'INPUT "%s" (%s) KEY ("Id");\n' "$name" "$2"; done
}

tables() {
    for name in $1; do
        printf 'CREATE TABLE "%s" (%s, PRIMARY KEY ("Id"));\n' "$name" "$2"
        printf '.import --csv --skip 1 %s/in/%s.csv %s\n' "$made" "$name" "$name"
    done
}

# A job of this name, over these tables of these columns, whose query has so many columns and comes on standard input.
job() {
    query=$(cat)
    {
        echo 'SET SCALE 6 ROUNDING HALF_UP;'
        inputs "$2" "$3"
        printf 'CREATE TABLE "total" AS\n%s;\nEXPORT "total";\n' "$query"
    } >"$made/script.sql"
    {
        tables "$2" "$3"
        order=$(seq -s , "$4")
        written_by sqlite.csv "$query"
        echo "ORDER BY $order;"
    } >"$made/job.sql"
    echo "$1"
    raced total
}

for rows in 500000 1000000; do
    make_rows "$rows"
    job "a filter of $rows rows" readings "$readings" 4 <<'END'
SELECT "r"."Id" AS "Id", "r"."Station" AS "Station", "r"."Hour" AS "Hour", "r"."Value" AS "Value"
FROM "readings" AS "r" WHERE "r"."Value" > 500000
END
    job "a projection of $rows rows" readings "$readings" 2 <<'END'
SELECT "r"."Id" AS "Id", "r"."Value" * 2 + "r"."Hour" AS "Sum" FROM "readings" AS "r"
END
    job "1,000 groups by two columns of $rows rows" readings "$readings" 4 <<'END'
SELECT "r"."Station" AS "Station", "r"."Hour" AS "Hour", COUNT(*) AS "Rows", SUM("r"."Value") AS "Sum"
FROM "readings" AS "r" GROUP BY "r"."Station", "r"."Hour"
END
done
for rows in 500000 1000000; do
    make_numbers left "$rows" 123457 0
    make_numbers right "$rows" 273139 $((rows / 2))
    job "a join of $rows with $rows rows by an equality" 'left right' "$numbers" 3 <<'END'
SELECT "l"."Id" AS "Left", "r"."Id" AS "Right", "l"."Number" AS "Number"
FROM "left" AS "l" INNER JOIN "right" AS "r" ON "l"."Number" = "r"."Number"
END
done
