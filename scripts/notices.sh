#!/bin/sh
# What a user may wish to know of a call that came to its end: notices.sh BEGAN WORD .., with the words of the call. A line
# for each result, and the time since BEGAN, where that is not empty. The files are read once more, pipes are not.
top=$(CDPATH='' cd -- "$(dirname -- "$0")/.." && pwd) || exit 1
began=$1
shift

# Which of the files of the call can be read once more.
files_at_hand() {
    [ ! -f "$2" ] || printf 'script '
    [ "$1" = engine ] || [ ! -f "$3" ] || printf 'structures '
}

# How many rows a result has: the records below the header.
rows_of() {
    if grep -q '"' "$1" 2>/dev/null; then
        awk '{ marks += gsub(/"/, "") } marks % 2 == 0 { rows++ } END { print rows - 1 }' "$1"
    else
        awk 'END { print NR - 1 }' "$1"
    fi
}

parts=$top/scripts/explain
VTL_TOP=$top VTL_FILES=$(files_at_hand "$@" - - -) LC_ALL=C
export VTL_TOP VTL_FILES LC_ALL
[ "$1" = engine ] || awk -f "$parts/text.awk" -f "$parts/script.awk" -f "$parts/records.awk" -f "$parts/notices.awk" -- "$@"
[ -n "$began" ] || exit 0
case $1 in
    run | sqlrun) out=${5-} ;;
    replay) out=${6-} ;;
    engine) out=${4-} ;;
    *) exit 0 ;;
esac
ended=$(date +%s%N)
for file in "$out"/*.csv; do
    [ -f "$file" ] && [ -n "$(find "$file" -newermt "@$((began / 1000000000))" 2>/dev/null)" ] || continue
    rows=$(rows_of "$file")
    [ "$rows" = 1 ] && rows='1 row' || rows="$rows rows"
    printf '%s: %s\n' "$file" "$rows"
done
awk -v time="$((ended - began))" 'BEGIN { printf "%.1f s\n", time / 1e9 }'
