#!/bin/sh
# Times joins and set operators, files to files, beside the sqlite3 shell and pandas on the same job, where they are
# installed. The figures are printed, and nothing is asserted of them: a job is meant to take at most a third of the time
# of the faster of the two, twice the rows at most 2.3 times the time, and a join with five small operands at most twice
# the time of the join with one. The program is the one that ../vtl builds; another may be given as the only word.
. "$(dirname -- "$(readlink -f -- "$0")")/lib.sh"

declared left Code right Value other Code >"$made/structures.csv"
cat >>"$made/structures.csv" <<'END'
fact,Number,identifier,integer,
fact,K1,identifier,integer,
fact,K2,identifier,integer,
fact,K3,identifier,integer,
fact,K4,identifier,integer,
fact,K5,identifier,integer,
fact,Value,measure,integer,
END
for i in 1 2 3 4 5; do
    printf 'code%d,K%d,identifier,integer,\ncode%d,Text%d,measure,string,\n' "$i" "$i" "$i" "$i" >>"$made/structures.csv"
done

# Points in a mixed order: a data set, its measure, how many, the step by which they go round, and the first of them.
make_points() {
    awk -v measure="$2" -v count="$3" -v step="$4" -v first="$5" 'BEGIN {
        print "Station,Number," measure
        for (i = 0; i < count; i++) {
            key = first + (i * step) % count
            printf "station-%04d,%d,%d\n", int(key / 1000), key % 1000, (key * 611953) % 1000003
        }
    }' >"$made/in/$1.csv"
}

# Points with five codes each, of which there are a thousand, and a text for each code.
make_facts() {
    awk -v count="$1" 'BEGIN {
        print "Number,K1,K2,K3,K4,K5,Value"
        for (i = 0; i < count; i++) {
            n = (i * 700001) % count
            printf "%d,%d,%d,%d,%d,%d,%d\n", n, n % 1000, (n * 7) % 1000, (n * 11) % 1000, (n * 13) % 1000, (n * 17) % 1000, n % 977
        }
    }' >"$made/in/fact.csv"
    for code in 1 2 3 4 5; do
        awk -v code="$code" 'BEGIN {
            print "K" code ",Text" code
            for (i = 0; i < 1000; i++) printf "%d,text %d of %d\n", (i * 37) % 1000, code, i
        }' >"$made/in/code$code.csv"
    done
}

# A job of this name, whose script comes on standard input, and whose result for the peers is the second word.
job() {
    cat >"$made/script.vtl"
    echo "$1"
    raced "$2"
    rm -f "$made/job.sql" "$made/job.py"
}

table() {
    case $1 in
        fact) columns='Number INTEGER NOT NULL, K1 INTEGER NOT NULL, K2 INTEGER NOT NULL, K3 INTEGER NOT NULL, K4 INTEGER NOT NULL, K5 INTEGER NOT NULL, Value INTEGER, PRIMARY KEY (Number, K1, K2, K3, K4, K5)' ;;
        code*) columns="K${1#code} INTEGER NOT NULL PRIMARY KEY, Text${1#code} TEXT" ;;
        right) station_table right Value; return ;;
        *) station_table "$1" Code; return ;;
    esac
    echo "CREATE TABLE $1 ($columns);"
    echo ".import --csv --skip 1 $made/in/$1.csv $1"
}

keys_of() {
    case $1 in
        fact) echo "['Number', 'K1', 'K2', 'K3', 'K4', 'K5']" ;;
        code*) echo "['K${1#code}']" ;;
        *) echo "['Station', 'Number']" ;;
    esac
}

# The peers of a job: tables to read, the query of sqlite3, the expression of pandas, and its columns of order.
peers() {
    {
        for name in $1; do table "$name"; done
        written_by sqlite.csv "$2"
    } >"$made/job.sql"
    {
        echo "import pandas"
        for name in $1; do
            echo "$name = pandas.read_csv('$made/in/$name.csv')"
            echo "assert not $name.duplicated($(keys_of "$name")).any()"
        done
        echo "keys = ['Station', 'Number']"
        echo "total = $3"
        echo "total.sort_values($4).to_csv('$made/out/pandas.csv', index=False)"
    } >"$made/job.py"
}

keys="['Station', 'Number']"
for points in 500000 1000000; do
    make_points left Code "$points" 700001 0
    make_points right Value "$points" 300007 0
    peers 'left right' 'SELECT l.Station, l.Number, Code, Value FROM left l JOIN right r ON l.Station = r.Station AND l.Number = r.Number ORDER BY l.Station, l.Number;' \
        'left.merge(right, on=keys)' "$keys"
    echo 'total <- inner_join(left, right);' | job "inner_join of $points with $points points" total
    peers 'left right' 'SELECT l.Station, l.Number, Code, Value FROM left l LEFT JOIN right r ON l.Station = r.Station AND l.Number = r.Number ORDER BY l.Station, l.Number;' \
        "left.merge(right, on=keys, how='left')" "$keys"
    echo 'total <- left_join(left, right);' | job "left_join of $points with $points points" total
done

facts='Number, K1, K2, K3, K4, K5'
order="['Number', 'K1', 'K2', 'K3', 'K4', 'K5']"
make_facts 1000000
peers 'fact code1' "SELECT Number, f.K1, K2, K3, K4, K5, Value, Text1 FROM fact f JOIN code1 c ON f.K1 = c.K1 ORDER BY Number, f.K1, K2, K3, K4, K5;" \
    "fact.merge(code1, on='K1')" "$order"
echo 'total <- inner_join(fact, code1);' | job 'inner_join of 1,000,000 points with 1,000 codes' total
peers 'fact code1' "SELECT Number, f.K1, K2, K3, K4, K5, Value, Text1 FROM fact f LEFT JOIN code1 c ON f.K1 = c.K1 ORDER BY Number, f.K1, K2, K3, K4, K5;" \
    "fact.merge(code1, on='K1', how='left')" "$order"
echo 'total <- left_join(fact, code1 using K1);' | job 'left_join of 1,000,000 points with 1,000 codes' total
peers 'fact code1 code2 code3 code4 code5' "SELECT Number, f.K1, f.K2, f.K3, f.K4, f.K5, Value, Text1, Text2, Text3, Text4, Text5 FROM fact f JOIN code1 a ON f.K1 = a.K1 JOIN code2 b ON f.K2 = b.K2 JOIN code3 c ON f.K3 = c.K3 JOIN code4 d ON f.K4 = d.K4 JOIN code5 e ON f.K5 = e.K5 ORDER BY Number, f.K1, f.K2, f.K3, f.K4, f.K5;" \
    "fact.merge(code1, on='K1').merge(code2, on='K2').merge(code3, on='K3').merge(code4, on='K4').merge(code5, on='K5')" "$order"
echo 'total <- inner_join(fact, code1, code2, code3, code4, code5);' | job 'inner_join of 1,000,000 points with five operands of 1,000 codes' total

make_points left Code 1000000 700001 0
make_points other Code 1000000 300007 500000
peers 'left other' 'SELECT * FROM left UNION ALL SELECT * FROM other o WHERE NOT EXISTS (SELECT 1 FROM left l WHERE l.Station = o.Station AND l.Number = o.Number) ORDER BY Station, Number;' \
    "pandas.concat([left, other]).drop_duplicates(keys)" "$keys"
echo 'total <- union(left, other);' | job 'union of 1,000,000 with 1,000,000 points, half of them shared' total
peers 'left other' "SELECT Station, Number, CASE WHEN EXISTS (SELECT 1 FROM other o WHERE l.Station = o.Station AND l.Number = o.Number) THEN 'true' ELSE 'false' END AS bool_var FROM left l ORDER BY Station, Number;" \
    "left.merge(other[keys], on=keys, how='left', indicator=True).assign(bool_var=lambda both: (both._merge == 'both').map({True: 'true', False: 'false'}))[['Station', 'Number', 'bool_var']]" "$keys"
echo 'total <- exists_in(left, other);' | job 'exists_in of 1,000,000 in 1,000,000 points' total

# Ages and classes of ages: a cross join of which one point in six hundred is kept.
cat >>"$made/structures.csv" <<'END'
ages,Person,identifier,integer,
ages,Age,measure,integer,
classes,Class,identifier,integer,
classes,Low,measure,integer,
classes,High,measure,integer,
END
for points in 25000 50000; do
    awk -v count="$points" 'BEGIN { print "Person,Age"; for (i = 0; i < count; i++) printf "%d,%d\n", (i * 7001) % count, (i * 611953) % 60000 }' >"$made/in/ages.csv"
    awk 'BEGIN { print "Class,Low,High"; for (i = 0; i < 600; i++) printf "%d,%d,%d\n", i, i * 100, i * 100 + 99 }' >"$made/in/classes.csv"
    echo 'total <- cross_join(ages, classes filter Low <= Age and Age <= High);' | job "cross_join of $points ages with 600 classes, one of them kept" total
done

# Codes and texts of codes, each once: a cross join whose filter equates them, of which one point in 20,000 is kept, and an
# inner join with a filter of as many points.
cat >>"$made/structures.csv" <<'END_OF_CODES'
uses,Person,identifier,integer,
uses,Code,measure,integer,
texts,Place,identifier,integer,
texts,Number,measure,integer,
codes,Person,identifier,integer,
codes,Number,measure,integer,
END_OF_CODES
for points in 20000 40000; do
    awk -v count="$points" 'BEGIN { print "Person,Code"; for (i = 0; i < count; i++) printf "%d,%d\n", i, (i * 7001) % count }' >"$made/in/uses.csv"
    awk -v count="$points" 'BEGIN { print "Place,Number"; for (i = 0; i < count; i++) printf "%d,%d\n", i, (i * 3001) % count }' >"$made/in/texts.csv"
    sed '1s/Place/Person/' "$made/in/texts.csv" >"$made/in/codes.csv"
    echo 'total <- cross_join(uses, texts filter Code = Number);' | job "cross_join of $points points with $points, whose filter equates a component of each" total
    echo 'total <- inner_join(uses, codes filter Code = Number);' | job "inner_join of $points points with $points, whose filter equates a component of each" total
done
