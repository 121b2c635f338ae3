#!/bin/sh
# Times the script of examples/balance on three data sets of 1,000,000 points each, files to files, by `run` and by `sqlrun`,
# beside the sqlite3 shell and pandas on the same job, where they are installed. The peers write differences and booleans in
# their own way, so only their counts of rows and of accounts that balance are compared. The figures are printed, and nothing
# is asserted of them: `sqlrun` is meant to take at most 1.3 times the time of `run`. The program is the one that ../vtl
# builds; another may be given as the only word.
. "$(dirname -- "$(readlink -f -- "$0")")/lib.sh"

for name in assets liabilities net_worth; do
    printf '%s,REF_AREA,identifier,string,\n%s,SECTOR,identifier,string,\n%s,TIME_PERIOD,identifier,time_period,\n%s,AMOUNT,measure,number,\n' "$name" "$name" "$name" "$name"
done | sed '1i dataset,component,role,type,codes' >"$made/structures.csv"

# Accounts of 100 areas, 100 sectors and 100 quarters in a mixed order, whose amounts this expression gives.
make_accounts() {
    awk -v step="$2" "BEGIN {
        print \"REF_AREA,SECTOR,TIME_PERIOD,AMOUNT\"
        for (i = 0; i < 1000000; i++) {
            key = (i * step) % 1000000
            quarter = key % 100
            printf \"A%02d,S%02d,%d-Q%d,%.2f\n\", int(key / 10000), int(key / 100) % 100, 2000 + int(quarter / 4), quarter % 4 + 1, $3
        }
    }" >"$made/in/$1.csv"
}

columns='REF_AREA TEXT NOT NULL, SECTOR TEXT NOT NULL, TIME_PERIOD TEXT NOT NULL, AMOUNT REAL, PRIMARY KEY (REF_AREA, SECTOR, TIME_PERIOD)'
{
    for name in assets liabilities net_worth; do
        printf 'CREATE TABLE %s (%s);\n.import --csv --skip 1 %s/in/%s.csv %s\n' "$name" "$columns" "$made" "$name" "$name"
    done
    cat <<END
.mode csv
.headers on
.once $made/out/sqlite.accounts
SELECT REF_AREA, SECTOR, TIME_PERIOD, a.AMOUNT - (l.AMOUNT + n.AMOUNT) AS DIFFERENCE,
  CASE WHEN abs(a.AMOUNT - (l.AMOUNT + n.AMOUNT)) <= 0.5 THEN 'true' ELSE 'false' END AS balances
FROM assets AS a JOIN liabilities AS l USING (REF_AREA, SECTOR, TIME_PERIOD) JOIN net_worth AS n USING (REF_AREA, SECTOR, TIME_PERIOD)
ORDER BY REF_AREA, SECTOR, TIME_PERIOD;
END
} >"$made/job.sql"
cat >"$made/job.py" <<END
import pandas
key = ['REF_AREA', 'SECTOR', 'TIME_PERIOD']
def read(name):
    rows = pandas.read_csv('$made/in/' + name + '.csv')
    assert not rows.duplicated(key).any()
    return rows
both = read('liabilities').merge(read('net_worth'), on=key)
both['AMOUNT'] = both['AMOUNT_x'] + both['AMOUNT_y']
checked = read('assets').merge(both[key + ['AMOUNT']], on=key).sort_values(key)
checked['DIFFERENCE'] = checked['AMOUNT_x'] - checked['AMOUNT_y']
checked['balances'] = (checked['DIFFERENCE'].abs() <= 0.5).map({True: 'true', False: 'false'})
checked[key + ['DIFFERENCE', 'balances']].to_csv('$made/out/pandas.accounts', index=False)
END

make_accounts assets 700001 '(key * 611953) % 100003 + (key % 4) * 0.25'
make_accounts liabilities 300007 'int(((key * 611953) % 100003) / 3)'
make_accounts net_worth 900007 '(key * 611953) % 100003 - int(((key * 611953) % 100003) / 3)'
cp "$top/examples/balance/script.vtl" "$made/script.vtl"
echo 'the script of examples/balance on 3,000,000 points'
raced checked
in_sql checked
for other in "$made"/out/*.accounts; do
    [ ! -e "$other" ] || for file in "$other" "$made/out/checked.csv"; do
        tr -d '\r"' <"$file" | awk -F, '$NF == "true" { count++ } END { print NR, count }'
    done | uniq | awk -v other="$(basename "$other")" 'END { if (NR > 1) printf "    %s has other accounts\n", other }'
done
