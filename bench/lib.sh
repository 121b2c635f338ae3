# Read by the scripts beside it, each of which times a program:
#   built      what is timed, the program `vtl` if a script sets nothing before, or another crate's
#   top        the top of the repository
#   program    the program that is timed: the one that ../vtl or scripts/build.sh builds, or the one that is given as the only
#              word of the script
#   made       a folder for what a script writes, with the folders `in` and `out`, which is removed at the end
# and functions that time a command, race the program against its peers, and write what several scripts read.
top=$(dirname -- "$(readlink -f -- "$0")")/..
built=${built:-vtl}
program=${1:-$top/crates/$built/out/$built}
if [ ! -x "$program" ]; then
    echo "$(basename -- "$0"): there is no program at $program; scripts/build.sh builds it" >&2
    exit 1
fi
made=$(mktemp -d) || exit 1
trap 'rm -rf "$made"' EXIT
mkdir "$made/in" "$made/out" || exit 1

# The first Python that has pandas, if there is one.
python=
for found in python3 /usr/bin/python3; do
    [ "$python" ] || ! "$found" -c 'import pandas' 2>/dev/null || python=$found
done

# Each job is run so many times, and the least of its times counts: one job's times differ by half from run to run.
RUNS=${RUNS:-3}

# One run of a command: its seconds in user and system mode, and its peak memory in KB where `time` is installed.
run_once() {
    if [ -x /usr/bin/time ]; then
        /usr/bin/time -a -o "$made/runs" -f '%U %S %M' "$@" >"$made/said" 2>&1
    else
        # In a subshell of its own, whose children are the command alone.
        ("$@" >"$made/said" 2>&1 && times >"$made/times") || return
        sed -n 2p "$made/times" | sed 's/[ms]/ /g' | awk '{ print $1 * 60 + $2, $3 * 60 + $4, 0 }' >>"$made/runs"
    fi
}

# Processor seconds of a command, whose name in the table comes first, and its peak memory; the least of all runs.
timed() {
    label=$1
    shift
    : >"$made/runs"
    for number in $(seq "$RUNS"); do
        run_once "$@" || return
    done
    awk '{ print $1 + $2, int($3 / 1024) }' "$made/runs" | sort -n | head -n 1 >"$made/least"
    awk -v label="$label" '{ printf "    %-8s %6.2f s", label, $1; if ($2) printf "  %4d MB", $2; print "" }' "$made/least"
    awk '{ print $1 }' "$made/least" >"$made/seconds.$label"
}

ratio() {
    [ -s "$made/seconds.$1" ] && paste -d' ' "$made/seconds.vtl" "$made/seconds.$1" |
        awk -v peer="$1" '$2 > 0 { printf "    vtl takes %.2f times the time of %s\n", $1 / $2, peer }'
}

# Tells where what a peer has written is not what the program has written as the result of this name.
compared() {
    for other in "$made"/out/sqlite.csv "$made"/out/pandas.csv; do
        if [ -e "$other" ] && ! tr -d '\r"' <"$other" | cmp -s - "$made/out/$1.csv"; then
            echo "    $(basename "$other") has other rows"
        fi
    done
}

# A job by the program, which runs $made/script.sql where it stands and else $made/script.vtl, and by the peers where
# $made/job.sql and $made/job.py stand.
raced() {
    rm -f "$made"/seconds.* "$made"/out/*
    result=$1
    set -- run "$made/script.vtl" "$made/structures.csv"
    [ ! -e "$made/script.sql" ] || set -- engine "$made/script.sql"
    timed vtl "$program" "$@" "$made/in" "$made/out" || cat "$made/said"
    if [ -e "$made/job.sql" ] && command -v sqlite3 >/dev/null; then
        timed sqlite3 sh -c 'rm -f "$1" && exec sqlite3 "$1" ".read $2"' sh "$made/work.db" "$made/job.sql"
        rm -f "$made/work.db"
        ratio sqlite3
    fi
    if [ -e "$made/job.py" ] && [ "$python" ]; then
        timed pandas "$python" "$made/job.py"
        ratio pandas
    fi
    compared "$result"
}

# The script of the run that was timed last by its text in SQL, beside that run; the two have written the same result.
in_sql() {
    mkdir -p "$made/in_sql"
    timed sqlrun "$program" sqlrun "$made/script.vtl" "$made/structures.csv" "$made/in" "$made/in_sql" || cat "$made/said"
    [ -s "$made/seconds.sqlrun" ] && paste -d' ' "$made/seconds.sqlrun" "$made/seconds.vtl" |
        awk '$2 > 0 { printf "    sqlrun takes %.2f times the time of run\n", $1 / $2 }'
    diff -q "$made/out/$1.csv" "$made/in_sql/$1.csv"
}

# A structures file of data sets of stations and numbers, each with a measure of integers: NAME MEASURE ..
declared() {
    echo 'dataset,component,role,type,codes'
    while [ $# -ge 2 ]; do
        printf '%s,Station,identifier,string,\n%s,Number,identifier,integer,\n%s,%s,measure,integer,\n' "$1" "$1" "$1" "$2"
        shift 2
    done
}

# Such a data set as a table of sqlite3, read from its file: NAME MEASURE.
station_table() {
    echo "CREATE TABLE $1 (Station TEXT NOT NULL, Number INTEGER NOT NULL, $2 INTEGER, PRIMARY KEY (Station, Number));"
    echo ".import --csv --skip 1 $made/in/$1.csv $1"
}

# The query of sqlite3 whose rows are written to a file of this name, behind the tables that it reads.
written_by() { printf '.mode csv\n.headers on\n.once %s\n%s\n' "$made/out/$1" "$2"; }
