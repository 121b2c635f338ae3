#!/bin/sh
# Times SERIES of the SQL dialect, run by the command `engine`, files to files, beside a recursive query of the sqlite3 shell
# on the same file, where it is installed: 1,000 series of 240 months of which every third is missing, filled and joined back,
# with SINGLE and with ALL; the same of half as many series; and one series of all months there are, of which the first and
# the last are given. The figures are printed, and nothing is asserted of them: twice the rows are meant to take at most 2.3
# times the time. The program is the one that ../vtl builds; another may be given as the only word.
. "$(dirname -- "$(readlink -f -- "$0")")/lib.sh"

# So many series of 240 months without every third, in a mixed order; each begins in another month.
make_series() {
    awk -v count="$1" 'BEGIN {
        print "g,p,v"
        rows = count * 240
        for (i = 0; i < rows; i++) {
            at = (i * 700001) % rows
            if (at % 3 == 1) continue
            series = int(at / 240)
            month = 12 * 1980 + series % 120 + at % 240
            printf "s%04d,%04d-M%02d,%d\n", series, int(month / 12), month % 12 + 1, (at * 611953) % 1000003
        }
    }' >"$made/in/T.csv"
}

months='CAST(substr(p, 1, 4) AS INTEGER) * 12 + CAST(substr(p, 7) AS INTEGER) - 1'

# A job of this name, with SINGLE or ALL.
job() {
    first="MIN($months)"
    last="MAX($months)"
    if [ "$2" = ALL ]; then
        first="(SELECT MIN($months) FROM T)"
        last="(SELECT MAX($months) FROM T)"
    fi
    cat >"$made/script.sql" <<SQL
SET SCALE 0 ROUNDING DOWN;
INPUT "T" ("g" TEXT, "p" PERIOD, "v" INTEGER) KEY ("g", "p");
CREATE TABLE "total" AS
  SELECT "s"."g" AS "g", "s"."p" AS "p", "t"."v" AS "v"
  FROM SERIES "T" ON "p" BY ("g") $2 AS "s"
  LEFT JOIN "T" AS "t" ON "s"."g" = "t"."g" AND "s"."p" = "t"."p";
EXPORT "total" ORDER BY "g", "p";
SQL
    {
        echo 'CREATE TABLE T (g TEXT NOT NULL, p TEXT NOT NULL, v INTEGER, PRIMARY KEY (g, p));'
        echo ".import --csv --skip 1 $made/in/T.csv T"
        written_by sqlite.csv "WITH RECURSIVE spans (g, at, last) AS (
  SELECT g, $first, $last FROM T GROUP BY g
  UNION ALL SELECT g, at + 1, last FROM spans WHERE at < last),
months AS (SELECT g, printf('%04d-M%02d', at / 12, at % 12 + 1) AS p FROM spans)
SELECT s.g AS g, s.p AS p, t.v AS v FROM months AS s LEFT JOIN T AS t ON t.g = s.g AND t.p = s.p ORDER BY 1, 2;"
    } >"$made/job.sql"
    echo "$1"
    raced total
}

for series in 500 1000; do
    make_series "$series"
    job "$series series of 240 months, each from its first to its last" SINGLE
    job "$series series of 240 months, all from the first to the last" ALL
done
printf 'g,p,v\na,0000-M01,1\na,9999-M12,2\n' >"$made/in/T.csv"
job 'one series of 120,000 months' SINGLE
