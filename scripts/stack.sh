#!/bin/sh
# How much stack the deepest scripts and texts want, by the built program: stack.sh [NAME ..] prints the least stack, in KB and to
# within 16, in which each call of these cases of scripts/limits.py comes to its end, those of depths where none is named; and at
# the end the greatest for each command. It takes some minutes.
top=$(CDPATH='' cd -- "$(dirname -- "$0")/.." && pwd) || exit 1
vtl=$top/crates/vtl/out/vtl
[ -x "$vtl" ] || { echo "stack.sh: there is no program: scripts/build.sh builds it" >&2; exit 1; }
made=$(mktemp -d) || exit 1
trap 'rm -rf "$made"' EXIT
"$top/scripts/limits.py" "$made/cases" || exit 1
if [ "$#" = 0 ]; then
    cd "$made/cases" || exit 1
    set -- depth_* sql_depth_* nodes
fi

# Whether a call ends within so much stack; a signal gives a code above 128.
ends_within() {
    room=$1
    shift
    mkdir -p "$made/out"
    (cd "$folder" && ulimit -s "$room" && exec "$vtl" "$@" >"$made/said" </dev/null)
    [ "$?" -le 7 ]
} 2>/dev/null

# The least stack of a call, to within 16 KB.
least() {
    enough=8192
    little=32
    if ! ends_within "$enough" "$@"; then
        echo "more than $enough"
        return
    fi
    while [ $((enough - little)) -gt 16 ]; do
        middle=$(((enough + little) / 2))
        if ends_within "$middle" "$@"; then enough=$middle; else little=$middle; fi
    done
    echo "$enough"
}

for case; do
    folder=$made/cases/$case
    if [ -e "$folder/script.vtl" ]; then
        for command in format sql lineage run sqlrun replay; do
            case $command in
                format) set -- format script.vtl ;;
                sql | lineage) set -- "$command" script.vtl structures.csv ;;
                replay)
                    : >"$folder/edits"
                    set -- replay script.vtl structures.csv in edits "$made/out"
                    ;;
                *) set -- "$command" script.vtl structures.csv in "$made/out" ;;
            esac
            echo "$command $(least "$@") $case"
        done
        "$vtl" sql "$folder/script.vtl" "$folder/structures.csv" >"$folder/text.sql" || continue
        echo "engine $(least engine text.sql in "$made/out") $case, its text"
    else
        echo "engine $(least engine script.sql in "$made/out") $case"
    fi
done | tee "$made/needs"
sort -k 1,1 -k 2,2nr "$made/needs" | awk '!($1 in seen) { seen[$1]; print "the greatest:", $0 }'
