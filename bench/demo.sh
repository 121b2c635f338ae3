#!/bin/sh
# Times the demonstration: a join and totals by the interpreter and by the engine, one after the other, in one call. The
# program is the one that ../vtl builds; another may be given as the only word.
. "$(dirname -- "$(readlink -f -- "$0")")/lib.sh"

for points in 200000 1000000; do
    echo "$points points"
    timed vtl "$program" demo "$points"
    sed 's/^/    /' "$made/said"
done
