#!/bin/sh
# Runs a text of the dialect on PostgreSQL: run.sh TEXT.sql IN OUT, in the database that psql connects to (PGHOST, PGDATABASE ..),
# in the schema vtl, which is made anew and dropped at the end. Nothing is promised of another database: see "Elsewhere" in docs/SQL.md.
here=$(CDPATH='' cd -- "$(dirname -- "$0")" && pwd) || exit 1
if [ $# != 3 ]; then
    echo 'run.sh TEXT.sql IN OUT' >&2
    exit 1
fi
{
    printf 'SET client_min_messages = warning;\nDROP SCHEMA IF EXISTS vtl CASCADE;\n'
    cat "$here/prelude.sql"
    VTL_IN=$2 VTL_OUT=$3 LC_ALL=C awk -f "$here/text.awk" "$1"
    printf 'DROP SCHEMA vtl CASCADE;\n'
} | psql -X -q -v ON_ERROR_STOP=1 -o /dev/null
