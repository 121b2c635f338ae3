#!/bin/sh
# Times the reading of structures files of the largest size, 1,048,576 bytes, in shapes that are hard for a reader, by runs
# of a script without statements. The times are printed with the number of data sets that the file declares, and nothing is
# asserted of them. The program is the one built in crates/vtl; another may be given as the only word.
. "$(dirname -- "$(readlink -f -- "$0")")/lib.sh"
: >"$made/script.vtl"

# A file of this filling.
filled() {
    awk -v filling="$1" '
        function part(i) {
            if (filling == "codes") return "|" i
            if (filling == "data_sets") return "d" i ",c,identifier,date,\n"
            return "d" int(i / 64) ",c" i % 64 "," (i % 64 ? "measure" : "identifier") ",date,\n"
        }
        BEGIN {
            text = "dataset,component,role,type,codes\n" (filling == "codes" ? "d,c,identifier,string,code" : "")
            for (bytes = 0; bytes < 4194304 - 64; text = part(i++)) {
                printf "%s", text
                bytes += length(text)
            }
            print ""
        }' >"$made/structures.csv"
}

# Reads a file of this filling a number of times, and prints how long one run took.
time_run() {
    filled "$1"
    sets=$(sed -n '2,$s/,.*//p' "$made/structures.csv" | sort -u | wc -l)
    start=$(date +%s%N)
    for _ in $(seq "$2"); do
        "$program" run "$made/script.vtl" "$made/structures.csv" "$made/in" "$made/out" || exit
    done
    end=$(date +%s%N)
    awk -v filling="$1" -v count="$2" -v sets="$sets" -v nanoseconds=$((end - start)) 'BEGIN {
        printf "%-10s %6d %10d %12.1f\n", filling, count, sets, nanoseconds / 1e6 / count
    }'
}

printf '%-10s %6s %10s %12s\n' filling count data-sets ms-a-run
time_run records 20
time_run data_sets 20
time_run codes 20
