#!/bin/sh
# Times inputs that were chosen to be slow or are so by bad luck, made by hostile.py, each beside a plain one of the same
# size, and beside itself with half the rows. The figures are printed, and nothing is asserted of them: a case is meant to
# take at most three times the time of its plain counterpart, and at most 2.3 times that of its half; of a text for the
# engine half the text is meant, since its parts are what is counted. The programs are
# those that scripts/build.sh builds; hostile.sh CASE .. times these cases alone.
top=$(dirname -- "$(readlink -f -- "$0")")/..
made=$(mktemp -d) || exit 1
trap 'rm -rf "$made"' EXIT

# Seconds of processor time of a case with so many rows, read by a program, and its peak memory in MB; the least of three.
seconds() {
    folder=$made/case
    rm -rf "$folder"
    "$top/bench/hostile.py" "$1" "$folder" "$2" || exit 1
    for _ in 1 2 3; do
        case $3 in
            vtl) set -- "$1" "$2" "$3" vtl run "$folder/script.vtl" "$folder/structures.csv" "$folder/in" "$folder/out" ;;
            engine) set -- "$1" "$2" "$3" vtl engine "$folder/script.sql" "$folder/in" "$folder/out" ;;
            *) set -- "$1" "$2" "$3" "$3" sql "$folder/script.sql" ;;
        esac
        (
            shift 3
            program=$top/crates/$1/out/$1
            shift
            /usr/bin/time -f '%U %S %M' -o "$made/time" "$program" "$@" >/dev/null 2>"$made/said"
        )
        tail -n 1 "$made/time" | awk '{ printf "%.2f %d\n", $1 + $2, $3 / 1024 }'
    done | sort -n | head -n 1
}

"$top/bench/hostile.py" list >"$made/cases" || exit 1
printf '%-20s %8s %8s %6s   %-20s %8s %6s %6s   %s\n' case rows seconds MB 'beside' seconds MB times 'times its half'
while read -r case plain count reader; do
    case " $* " in "  " | *" $case "*) ;; *) continue ;; esac
    program=$reader
    [ "$reader" != engine ] || program=vtl
    [ -x "$top/crates/$program/out/$program" ] || { echo "hostile.sh: $program is not built" >&2; exit 1; }
    whole=$(seconds "$case" "$count" "$reader")
    half=$(seconds "$case" $((count / 2)) "$reader")
    beside=$(seconds "$plain" "$count" "$reader")
    echo "$case $count $whole $plain $beside $half" | awk '{
        printf "%-20s %8d %8.2f %6d   %-20s %8.2f %6d %6.1f   %.1f\n", $1, $2, $3, $4, $5, $6, $7, $3 / ($6 + 0.005), $3 / ($8 + 0.005)
    }'
done <"$made/cases"
