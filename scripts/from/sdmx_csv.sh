#!/bin/sh
# Cuts an SDMX-CSV file to the components that a structures file declares of a data set: sdmx_csv.sh STRUCTURES DATASET FILE
# writes the CSV file of the data set to standard output. Columns that are not declared (DATAFLOW, STRUCTURE, ACTION ..) go.
top=$(CDPATH='' cd -- "$(dirname -- "$0")/../.." && pwd) || exit 1
if [ $# != 3 ]; then
    echo 'sdmx_csv.sh STRUCTURES DATASET FILE' >&2
    exit 1
fi
parts=$top/scripts/explain
LC_ALL=C exec awk -f "$parts/text.awk" -f "$parts/records.awk" -f "$top/scripts/from/sdmx_csv.awk" -- "$@"
