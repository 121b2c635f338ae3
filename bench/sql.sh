#!/bin/sh
# Times the reading of texts of the SQL dialect of 5,000,000 and 10,000,000 bytes, in shapes that are hard for a reader; and
# the typing of scripts that are typed, in shapes that are hard for a look-up.
# The times are printed with what was read, and nothing is asserted of them.
# The program is the one built in crates/vtl_probe; another may be given as the only word.
built=vtl_probe
. "$(dirname -- "$(readlink -f -- "$0")")/lib.sh"

table='CREATE TABLE "U" AS SELECT'
source='AS "c" FROM "T" AS "t"'

# A text: a front, what is said again and again to so many bytes, an end.
text() {
    awk -v front="$1" -v again="$2" -v tail="$3" -v size="$4" 'BEGIN {
        printf "SET SCALE 6 ROUNDING HALF_UP;%s", front
        for (bytes = 0; bytes < size; bytes += length(again)) printf "%s", again
        printf "%s", tail
    }' >"$made/text.sql"
}

# A shape of this name, at both sizes.
shape() {
    for size in 5000000 10000000; do
        text "$2" "$3" "$4" "$size"
        start=$(date +%s%N)
        said=$("$program" sql "$made/text.sql")
        end=$(date +%s%N)
        awk -v name="$1" -v size="$size" -v nanoseconds=$((end - start)) -v said="$said" 'BEGIN {
            printf "%-22s %9d bytes %8.0f ms  %s\n", name, size, nanoseconds / 1e6, said
        }'
    done
}

chain=$(awk 'BEGIN { printf "1"; for (i = 1; i < 500; i++) printf " OR 1" }')
shape 'a select list' " $table " '"t"."a" + 1 AS "c", ' "1 $source;"
shape 'chains of 500 OR' " $table " "$chain AS \"c\", " "1 $source;"
shape 'one chain of OR' " $table " '1 OR ' "1 $source;"
shape 'UNION ALLs' " $table " "1 $source UNION ALL SELECT " "1 $source;"
shape 'signs' " $table " '-' "1 $source;"
shape 'opening brackets' " $table " '(' "1 $source;"
shape 'statements' '' ' EXPORT "U";' ''

# A script that is typed: a program of awk that prints what stands behind SET, with `many` of its parts.
typed() {
    for many in "$2" "$(($2 * 2))"; do
        awk -v many="$many" "BEGIN { printf \"SET SCALE 6 ROUNDING HALF_UP;\"; input = \"INPUT \\\"T\\\" (\\\"a\\\" INTEGER) KEY (\\\"a\\\");\"; $3 }" >"$made/text.sql"
        start=$(date +%s%N)
        said=$("$program" sql "$made/text.sql")
        end=$(date +%s%N)
        awk -v name="$1" -v many="$many" -v nanoseconds=$((end - start)) -v said="$said" 'BEGIN {
            printf "%-34s %6d %8.0f ms  %s\n", name, many, nanoseconds / 1e6, said
        }'
    done
}

typed 'tables' 10000 '
    printf "%s", input
    for (i = 0; i < many; i++) printf "CREATE TABLE \"U%d\" AS SELECT \"t\".\"a\" AS \"a\" FROM \"%s\" AS \"t\";", i, i ? "U" (i - 1) : "T"'
typed 'uses of 1,024 columns' 10000 '
    printf "%sCREATE TABLE \"W\" AS SELECT 1 AS \"c0\"", input
    for (i = 1; i < 1024; i++) printf ", 1 AS \"c%d\"", i
    printf " FROM \"T\" AS \"t\";"
    for (i = 0; i < many; i++) printf "CREATE TABLE \"U%d\" AS SELECT \"w\".\"c%d\" AS \"c\" FROM \"W\" AS \"w\";", i, i % 1024'
typed 'joined sources' 1000 '
    printf "%sCREATE TABLE \"U\" AS SELECT 1 AS \"c\" FROM \"T\" AS \"t0\"", input
    for (i = 1; i < many; i++) printf " INNER JOIN \"T\" AS \"t%d\" ON \"t%d\".\"a\" = \"t%d\".\"a\"", i, i, i - 1
    printf ";"'
typed 'selects of a UNION ALL' 10000 '
    printf "%sCREATE TABLE \"U\" AS SELECT \"t\".\"a\" AS \"c\" FROM \"T\" AS \"t\"", input
    for (i = 1; i < many; i++) printf " UNION ALL SELECT 1 AS \"c\" FROM \"T\" AS \"t\""
    printf ";"'
typed 'columns of GROUP BY' 10000 '
    printf "%sCREATE TABLE \"U\" AS SELECT \"t\".\"a\" AS \"c\" FROM \"T\" AS \"t\" GROUP BY \"t\".\"a\"", input
    for (i = 1; i < many; i++) printf ", \"t\".\"a\""
    printf ";"'
typed 'literals of IN' 100000 '
    printf "%sCREATE TABLE \"U\" AS SELECT \"t\".\"a\" IN (0", input
    for (i = 1; i < many; i++) printf ", %d", i
    printf ") AS \"c\" FROM \"T\" AS \"t\";"'
