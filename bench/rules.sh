#!/bin/sh
# Times checks by 10 and by 50 datapoint rules over 1,000,000 points, files to files, by `run` and by `sqlrun`, beside the
# sqlite3 shell and pandas on the same checks, where they are installed. The figures are printed, and nothing is asserted of
# them. The program is the one that ../vtl builds; another may be given as the only word.
. "$(dirname -- "$(readlink -f -- "$0")")/lib.sh"

cat >"$made/structures.csv" <<'END'
dataset,component,role,type,codes
readings,Station,identifier,string,
readings,Number,identifier,integer,
readings,A,measure,integer,
readings,B,measure,integer,
readings,C,measure,integer,
END

# Points in a mixed order, each with two values and their sum, which is wrong at every 997th.
make_points() {
    awk -v count="$1" 'BEGIN {
        print "Station,Number,A,B,C"
        for (i = 0; i < count; i++) {
            key = (i * 700001) % count
            a = (key * 611953) % 1000003
            b = (key * 271829) % 1000003
            printf "station-%04d,%d,%d,%d,%d\n", int(key / 1000), key % 1000, a, b, a + b + (key % 997 == 0)
        }
    }' >"$made/in/readings.csv"
}

# A rule by its number: in `when`, where it asks for something, and in `holds`, what. Each is broken at few points.
rule() {
    when=
    case $(($1 % 5)) in
        0) holds="A * 2 - B < $((2000006 - 3000 * $1))" ;;
        1) holds="A < $((1000003 - 40 * $1))" ;;
        2)
            when='A > 500000'
            holds="B < $((1000003 - 60 * $1))"
            ;;
        3) holds="A + B >= $((300 * $1))" ;;
        4)
            when="B > A + $1"
            holds='C - A = B'
            ;;
    esac
    name=$(printf 'r%02d' "$1")
    level=$(($1 % 3 + 1))
}

# So many rules in each language.
write_rules() {
    echo 'define datapoint ruleset rules (variable A, B, C) is' >"$made/script.vtl"
    {
        echo 'CREATE TABLE readings (Station TEXT NOT NULL, Number INTEGER NOT NULL, A INTEGER, B INTEGER, C INTEGER, PRIMARY KEY (Station, Number));'
        echo ".import --csv --skip 1 $made/in/readings.csv readings"
        printf '.mode csv\n.headers on\n.once %s\n' "$made/out/sqlite.csv"
    } >"$made/job.sql"
    {
        echo 'import pandas'
        echo "rows = pandas.read_csv('$made/in/readings.csv')"
        echo "assert not rows.duplicated(['Station', 'Number']).any()"
        echo 'def broken(name, code, level, test):'
        echo '    points = rows[rows.eval(test)]'
        echo '    points.insert(2, "ruleid", name)'
        echo '    return points.assign(errorcode=code, errorlevel=level)'
        echo 'wrong = pandas.concat(['
    } >"$made/job.py"
    for number in $(seq "$1"); do
        rule "$number"
        [ "$number" = 1 ] || echo ';' >>"$made/script.vtl"
        printf '  %s: %s%s errorcode "E-%s" errorlevel %s' "$name" "${when:+when $when then }" "$holds" "$name" "$level" >>"$made/script.vtl"
        [ "$number" = 1 ] || echo 'UNION ALL' >>"$made/job.sql"
        echo "SELECT Station, Number, '$name' AS ruleid, A, B, C, 'E-$name' AS errorcode, $level AS errorlevel FROM readings WHERE ${when:+$when AND }NOT ($holds)" >>"$made/job.sql"
        echo "    broken('$name', 'E-$name', $level, '${when:+($when) and }not ($(echo "$holds" | sed 's/ = / == /'))')," >>"$made/job.py"
    done
    printf '\nend datapoint ruleset;\nwrong <- check_datapoint(readings, rules);\n' >>"$made/script.vtl"
    echo 'ORDER BY Station, Number, ruleid;' >>"$made/job.sql"
    echo '])' >>"$made/job.py"
    echo "wrong.sort_values(['Station', 'Number', 'ruleid']).to_csv('$made/out/pandas.csv', index=False)" >>"$made/job.py"
}

make_points 1000000
for rules in 10 50; do
    write_rules "$rules"
    echo "$rules rules over 1,000,000 points"
    raced wrong
    in_sql wrong
done
