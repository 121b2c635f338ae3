#!/bin/sh
# Drafts a structures file for CSV files, on standard output: infer.sh infer FILE.csv .. The data sets have the names of the
# files. A column has the first type that all its fields read as; identifiers are the columns from the first on that are a
# key, and texts behind them are attributes where a number is a measure. What a person should look at is said on standard error.
top=$(CDPATH='' cd -- "$(dirname -- "$0")/.." && pwd) || exit 1
VTL_TOP=$top LC_ALL=C
export VTL_TOP LC_ALL
if [ $# -lt 2 ]; then
    echo 'error: usage'
    echo 'usage:    vtl infer FILE.csv ..' >&2
    exit 1
fi
for file in "$@"; do
    [ "$file" = infer ] || [ -f "$file" ] || {
        echo "error: no file: $file"
        exit 4
    }
done
parts=$top/scripts/explain
exec awk -f "$parts/text.awk" -f "$parts/grammar.awk" -f "$parts/records.awk" -f "$parts/values.awk" -f "$parts/infer.awk" -- "$@"
