#!/bin/sh
# Times checks by 80 hierarchical rules over 300 items, and the items that these rules make, over 500,000 and 1,000,000 points,
# files to files, by `run` and by `sqlrun`; and tells how much more time twice the points take. The figures are printed, and
# nothing is asserted of them. The program is the one that ../vtl builds; another may be given as the only word.
. "$(dirname -- "$(readlink -f -- "$0")")/lib.sh"

cat >"$made/structures.csv" <<'END'
dataset,component,role,type,codes
stock,Item,identifier,string,
stock,Place,identifier,integer,
stock,Value,measure,integer,
END

# Points in a mixed order: 300 items at each place. An item of number 1 to 80 is the sum of three others, but for every 997th point.
make_points() {
    awk -v count="$1" 'BEGIN {
        print "Item,Place,Value"
        for (i = 0; i < count; i++) {
            key = (i * 700001) % count
            item = key % 300
            place = int(key / 300)
            value = (place * 611953 + item * 271829) % 100003
            if (item >= 1 && item <= 80) value = total(item, place) + (key % 997 == 0)
            printf "item-%03d,%d,%d\n", item, place, value
        }
    }
    # The three parts of an item of a rule are items of no rule.
    function part(item, number) { return 81 + (item * 7 + number * 71) % 219 }
    function total(item, place,    sum, number) {
        for (number = 0; number < 3; number++) sum += (place * 611953 + part(item, number) * 271829) % 100003
        return sum
    }' >"$made/in/stock.csv"
}

# The rules, and the call whose result is `told`.
write_script() {
    awk -v call="$1" 'BEGIN {
        print "define hierarchical ruleset totals (variable rule Item) is"
        for (item = 1; item <= 80; item++)
            printf "  r%02d: '"'item-%03d' = 'item-%03d' + 'item-%03d' + 'item-%03d'"' errorcode \"E-%d\" errorlevel 2%s\n", \
                item, item, part(item, 0), part(item, 1), part(item, 2), item, item < 80 ? ";" : ""
        print "end hierarchical ruleset;"
        print "told <- " call ";"
    }
    function part(item, number) { return 81 + (item * 7 + number * 71) % 219 }' >"$made/script.vtl"
}

for call in 'check_hierarchy(stock, totals)' 'hierarchy(stock, totals)'; do
    write_script "$call"
    for points in 500000 1000000; do
        make_points "$points"
        echo "$call over $points points"
        raced told
        in_sql told
        for way in vtl sqlrun; do mv "$made/seconds.$way" "$made/$way.$points"; done
    done
    for way in vtl sqlrun; do
        paste -d' ' "$made/$way.1000000" "$made/$way.500000" |
            awk -v way="$way" '$2 > 0 { printf "    twice the points take %s %.2f times the time\n", way, $1 / $2 }'
    done
done
