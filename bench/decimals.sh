#!/bin/sh
# Times each operation on decimal numbers. The times are printed, and nothing is asserted of them.
# The program is the one built in crates/vtl_probe; another may be given as the only word.
built=vtl_probe
. "$(dirname -- "$(readlink -f -- "$0")")/lib.sh"

# Runs an operation a number of times, and prints how long it took.
time_run() {
    start=$(date +%s%N)
    "$program" time "$1" "$2" >/dev/null || exit
    end=$(date +%s%N)
    awk -v operation="$1" -v count="$2" -v nanoseconds=$((end - start)) 'BEGIN {
        printf "%-10s %11d %8d %14.0f\n", operation, count, nanoseconds / 1e6, count * 1e9 / nanoseconds
    }'
}

printf '%-10s %11s %8s %14s\n' operation count ms per-second
time_run add 500000000
time_run mul 50000000
time_run div 50000000
time_run read 30000000
time_run write 40000000
