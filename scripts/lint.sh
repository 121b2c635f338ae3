#!/bin/sh
# Looks through the structures file, and then the input of each declared data set: lint.sh lint STRUCTURES IN [--scale D]
# [--round R]. Prints a line for each fault, as the program does for the first one, with what is seen there. Exit codes: 0
# where there is none, 2 for a fault of the structures file, 4 for one of an input. Scale and rounding are those of the
# options, else those of the structures file.
top=$(CDPATH='' cd -- "$(dirname -- "$0")/.." && pwd) || exit 1
VTL_TOP=$top VTL_SCALE= VTL_ROUND= LC_ALL=C
export VTL_TOP VTL_SCALE VTL_ROUND LC_ALL

usage() {
    echo 'error: usage'
    echo 'usage:    vtl lint STRUCTURES IN [--scale D] [--round R]' >&2
    exit 1
}

[ $# -ge 3 ] || usage
place=4
while [ "$place" -le $# ]; do
    eval "option=\${$place} value=\${$((place + 1))-}"
    case $option:$value in
        --scale:[0-9]) VTL_SCALE=$value ;;
        --round:half_up | --round:half_even | --round:down) VTL_ROUND=$value ;;
        *) usage ;;
    esac
    place=$((place + 2))
done
if [ ! -f "$2" ]; then
    echo "error: no file: $2"
    exit 4
fi
parts=$top/scripts/explain
exec awk -f "$parts/text.awk" -f "$parts/grammar.awk" -f "$parts/records.awk" -f "$parts/values.awk" -f "$parts/lint.awk" -- "$@"
