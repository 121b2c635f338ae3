#!/bin/sh
# Runs all of cases/ and examples/ by the built programs, in less than a minute: cases/run.sh [NAME ..], where a NAME is a
# folder of cases/, `examples`, `migrate`, `launcher`, `check`, `limits`, `session`, or `sentences`, `pages`, `crates`, `edits`, for which no
# program is needed. By the name `large` alone runs with large files are made.
# Prints what differs, the longest chain of libraries, and at the end 'N passed, M failed'.
top=$(CDPATH='' cd -- "$(dirname -- "$0")/.." && pwd) || exit 1
vtl=$top/crates/vtl/out/vtl
probe=$top/crates/vtl_probe/out/vtl_probe
sessions=$top/crates/session_probe/out/session_probe
made=$(mktemp -d) || exit 1
trap 'chmod -R u+rwx "$made"; rm -rf "$made"' EXIT
newline='
'
passed=0
failed=0
unset VTL_EXPLAIN

pass() { passed=$((passed + 1)); }

fail() {
    failed=$((failed + 1))
    echo "$1"
}

# A table: the program compares each of its lines.
table() {
    "$probe" "$@" >"$made/said" 2>"$made/told"
    code=$?
    counts=$(tail -n 1 "$made/said" | sed -n 's/^\([0-9]*\) passed, \([0-9]*\) failed$/\1 \2/p')
    if [ -z "$counts" ] || [ "$code" -gt 1 ]; then
        fail "$*: no verdict, exit code $code: $(tail -n 1 "$made/told")"
        return
    fi
    passed=$((passed + ${counts% *}))
    failed=$((failed + ${counts#* }))
    case $code:$counts in
        0:0\ 0) fail "$2: no line" ;;
        0:*\ 0) ;;
        0:* | 1:*\ 0) fail "$2: exit code $code with the counts $counts" ;;
        *) sed "s|^|$2: |" "$made/said" ;;
    esac
}

# Nests, as a table of texts: the word for these, the table, what a nest at the most levels comes out as, and a deeper one.
nests() {
    awk -v whole="$3" -v broken="$4" -f cases/nests.awk "$2" >"$made/nests.csv"
    table "$1" "$made/nests.csv"
}

# The fronts of a script, as a table of texts, by the program and by the grammar of the page: the word for these, the script, the
# table.
fronts() {
    LC_ALL=C awk -f cases/fronts.awk "$2" "$3" >"$made/fronts.csv"
    table "$1" "$made/fronts.csv"
    read_by_page "$1" "$made/fronts.csv"
}

# A file beside what the probe prints of it. The code says whether the file is a script.
printed() {
    "$probe" "$1" "$2" >"$made/said" 2>"$made/told"
    code=$?
    if [ "$code" -le 3 ] && [ ! -s "$made/told" ] && cmp -s "$3" "$made/said"; then
        pass
    else
        fail "$2: exit code $code"
        diff "$3" "$made/said" | head -n 10
        cat "$made/told"
    fi
}

# A script, and what `format` prints of it.
formed() {
    "$vtl" format "$1" >"$made/said" 2>"$made/told"
    code=$?
    if [ "$code" = 0 ] && [ ! -s "$made/told" ] && cmp -s "$2" "$made/said"; then
        pass
    else
        fail "$1: exit code $code"
        diff "$2" "$made/said" | head -n 10
    fi
}

# A structures file that is migrated: what is written is version 2, and is written again as it is. One that is refused stays refused.
migrated() {
    "$vtl" migrate "$1" >"$made/second" 2>"$made/told"
    code=$?
    read -r first <"$made/second"
    case $code:$first in
        0:structures,2,[0-9],*,,) ;;
        2:'error: structures line '* | 2:'error: not text: '* | 4:'error: too long: '*)
            pass
            return
            ;;
        *)
            fail "$1: migrate: exit code $code, $first"
            return
            ;;
    esac
    "$vtl" migrate "$made/second" >"$made/third" 2>>"$made/told"
    if [ ! -s "$made/told" ] && cmp -s "$made/second" "$made/third"; then pass; else fail "$1: migrated otherwise again"; fi
}

# A script that is its own canonical text.
is_formed() { formed "$1" "$1"; }

# The script of a whole run is so, unless it is none, or its layout is what the case is about.
is_formed_in() {
    [ -f "$1/script.vtl" ] && [ ! -e "$1/unformed" ] || return
    line=
    [ ! -e "$1/line" ] || read -r line <"$1/line"
    case $line in
        'error: syntax '* | 'error: not text: script.vtl' | 'error: too long: script.vtl') ;;
        *) is_formed "$1/script.vtl" ;;
    esac
}

# A call of the program in the folder. What it prints is left in files, but where the case names a device for its standard
# output. Where the case has a limit, it is killed after so many seconds of processor time, or has so many KB of memory or stack.
called() {
    output=$made/said
    seconds=unlimited
    [ ! -e "$case/seconds" ] || read -r seconds <"$case/seconds"
    if [ -e "$case/stdout" ]; then
        : >"$made/said"
        read -r output <"$case/stdout"
    fi
    memory=unlimited
    [ ! -e "$case/memory" ] || read -r memory <"$case/memory"
    stack=
    [ ! -e "$case/stack" ] || read -r stack <"$case/stack"
    (cd "$folder" && ulimit -t "$seconds" && ulimit -v "$memory" && ulimit ${stack:+-s "$stack"} >/dev/null && "$program" "$@" >"$output" 2>"$made/told" </dev/null)
    code=$?
}

# The files of a case in a folder of their own, with an empty folder for what is written.
laid_out() {
    folder=$made/folder
    rm -rf "$folder"
    cp -R "$case" "$folder"
    [ -e "$folder/structures.csv" ] || [ ! -e "$case/../structures.csv" ] || cp "$case/../structures.csv" "$folder"
    (cd "$folder" && rm -rf expected line code told words setup seconds memory stack stdout unformed out && mkdir out) || return
    if [ -e "$case/setup" ] && ! (cd "$folder" && sh "$case/setup"); then
        fail "$case: setup failed"
        return 1
    fi
}

# The same folder, before another way of the same run.
laid_out_again() {
    if [ -e "$case/setup" ]; then
        laid_out
    else
        rm -rf "$folder/out"
        mkdir "$folder/out"
    fi
}

# Calls a function with the words of the case.
with_words() {
    function=$1
    set --
    if [ -e "$case/words" ]; then
        while IFS= read -r word || [ "$word" ]; do set -- "$@" "$word"; done <"$case/words"
    elif [ -e "$folder/script.sql" ]; then
        set -- engine script.sql in out
    elif [ -e "$folder/edits" ]; then
        set -- replay script.vtl structures.csv in edits out
    else
        set -- run script.vtl structures.csv in out
    fi
    "$function" "$@"
}

# Whether a file has the bytes that are wanted: those of another one, or none where this is missing.
same_bytes() { if [ -s "$1" ]; then cmp -s "$1" "$2"; else [ ! -s "$2" ]; fi; }

# Compares what a call has come to with what is wanted of the case, by the name of the case and of the way.
judged() {
    wanted_code=0
    [ ! -e "$case/code" ] || read -r wanted_code <"$case/code"
    if [ "$code" != "$wanted_code" ]; then
        fail "$1: exit code $code, wanted $wanted_code: $(head -n 1 "$made/said")"
    elif ! same_bytes "$case/line" "$made/said"; then
        fail "$1: printed $(head -n 1 "$made/said")"
    elif ! same_bytes "$case/told" "$made/told"; then
        fail "$1: other words on standard error"
        head -n 10 "$made/told"
    elif ! written "$case/expected" "$folder/out"; then
        fail "$1: other files were written"
    else
        pass
    fi
}

# Carries out the words in the folder: it must come to what is wanted of the case.
ended() {
    called "$@"
    judged "$case$way"
}

# A whole run: a folder with its files, and what is wanted.
run() {
    case=$1
    way=
    laid_out && with_words ended
}

# The same by the script's text in SQL, by `sqlrun`, and by `engine` on the text that `sql` prints; and by `replay` without edits,
# which runs each statement as a script of its own.
run_all_ways() {
    run "$1"
    with_words run_otherwise
}

run_otherwise() {
    [ "$1" = run ] && [ ! -e "$case/stdout" ] || return
    shift
    way=', by sqlrun'
    laid_out_again && ended sqlrun "$@"
    [ $# -ge 4 ] || return
    laid_out_again && run_by_its_text "$@"
    laid_out_again && run_by_its_parts "$@"
}

# A replay that is done says one line besides.
run_by_its_parts() {
    script=$1
    structures=$2
    inputs=$3
    outputs=$4
    shift 4
    : >"$folder/edits"
    called replay "$script" "$structures" "$inputs" edits "$outputs" "$@"
    if [ "$code" = 0 ] && [ "$(grep -cx 'ran\( [1-9][0-9]*\)*' "$made/said")" = 1 ]; then sed -i 1d "$made/said"; fi
    judged "$case, by replay"
}

# Where there is no text, what `sql` says is compared: what refuses a script or its structures refuses it on each way.
run_by_its_text() {
    script=$1
    structures=$2
    inputs=$3
    outputs=$4
    shift 4
    called sql "$script" "$structures" "$@"
    if [ "$code" = 0 ]; then
        mv "$made/said" "$folder/text.sql"
        called engine text.sql "$inputs" "$outputs"
    fi
    judged "$case, by the text of sql"
}

# A replay; and, where it comes to a run, the runs over the inputs that its edits leave behind: they come to the same files, or to
# the same fault.
replayed() {
    run "$1"
    case $wanted_code in
        0 | 5) with_words runs_behind_edits ;;
    esac
}

runs_behind_edits() {
    shift 6
    for command in run sqlrun; do
        laid_out_again
        inputs_behind_edits
        called "$command" script.vtl structures.csv left_in out "$@"
        if [ "$code" != "$wanted_code" ] || ! written "$case/expected" "$folder/out"; then
            fail "$case, by $command behind its edits: exit code $code, wanted $wanted_code: $(head -n 1 "$made/said")"
        elif [ "$code" = 0 ]; then
            if [ ! -s "$made/said" ]; then pass; else fail "$case, by $command behind its edits: printed $(head -n 1 "$made/said")"; fi
        elif same_bytes "$case/line" "$made/said"; then
            pass
        else
            fail "$case, by $command behind its edits: printed $(head -n 1 "$made/said")"
        fi
    done
}

# A replay that is done, by sessions over two back ends: one that counts carries out as many transformations as it says, and both come to
# the lines and the outputs that are wanted of the command.
by_sessions() {
    case=$1
    laid_out || return
    (cd "$folder" && "$sessions" script.vtl structures.csv in edits) >"$made/said" 2>"$made/told" </dev/null
    code=$?
    for back in counting sql_back; do
        echo "$back"
        awk -v back="$back" '{ print $0 (back == "counting" && $1 == "ran" ? ", " NF - 1 " carried out" : "") }' "$case/line"
        for output in $(sed -n 's/^\([A-Za-z0-9_.]*\) <- .*/\1/p' "$folder/script.vtl"); do
            echo "$output"
            cat "$case/expected/$output.csv"
        done
    done >"$made/wanted"
    if [ "$code" = 0 ] && cmp -s "$made/wanted" "$made/said"; then
        pass
    else
        fail "$case, by sessions: exit code $code"
        diff "$made/wanted" "$made/said" | head -n 10
        cat "$made/told"
    fi
}

# The inputs as edits leave them, in a folder of their own: those of `in`, and over each its last edit.
inputs_behind_edits() {
    rm -rf "$folder/left_in"
    mkdir "$folder/left_in"
    [ ! -d "$folder/in" ] || cp "$folder"/in/*.csv "$folder/left_in"
    while IFS= read -r edit; do cp "$folder/${edit#* }/${edit%% *}.csv" "$folder/left_in"; done <"$folder/edits"
}

# The text that `sql` prints of a script, beside the one that is wanted.
printed_in_sql() {
    called sql script.vtl structures.csv
    if [ "$code" = 0 ] && cmp -s "$1" "$made/said"; then
        pass
    else
        fail "$case: translated otherwise, exit code $code"
        diff "$1" "$made/said"
    fi
}

# A script and its text in SQL, which come to the same on all ways.
translated() {
    case=$1
    laid_out || return
    printed_in_sql "$case/script.sql"
    for command in run sqlrun; do
        way=", by $command"
        laid_out_again && ended "$command" script.vtl structures.csv in out
    done
    way=', by engine'
    laid_out_again && ended engine script.sql in out
}

# A run by the launcher, which explains its line; without a structures file of its own it has the one beside the cases.
# Where a case gives a line, that is explained, and nothing is run.
explained() {
    case=$1
    if [ ! -e "$case/said" ]; then
        run "$case"
        return
    fi
    set -- run script.vtl ../structures.csv in out
    [ ! -e "$case/script.sql" ] || set -- engine script.sql in out
    if (cd "$case" && "$top/scripts/explain.sh" "$(cat said)" "$@") >"$made/said" 2>&1 &&
        cmp -s "$case/told" "$made/said"; then
        pass
    else
        fail "$case: explained otherwise"
        diff "$case/told" "$made/said"
    fi
}

# A call of the launcher that must say a sentence, by the name of the case.
says() {
    sentence=$1
    name=$2
    shift 2
    (cd "$folder" && "$top/vtl" "$@" >"$made/said" 2>"$made/told" </dev/null)
    if grep -qxF -e "$sentence" "$made/told"; then
        pass
    else
        fail "$name: does not say: $sentence"
        cat "$made/said" "$made/told"
    fi
}

# The mistakes of a table: each with a sentence that the launcher is to say. Of scripts, and of the file of a data set.
mistakes() {
    folder=$made/folder
    rm -rf "$folder"
    mkdir -p "$folder/in" "$folder/out"
    cp "$1/structures.csv" "$folder"
    [ ! -e "$1/script.vtl" ] || cp "$1/script.vtl" "$folder"
    tail -n +2 "$1/mistakes.tsv" >"$made/mistakes"
    while IFS='	' read -r text sentence; do
        if [ -e "$1/script.vtl" ]; then
            printf %b "$text" >"$folder/in/D.csv"
            says "$sentence" "$1: $text" run script.vtl structures.csv in out
        else
            printf '%s\n' "$text" >"$folder/script.vtl"
            says "$sentence" "$1: $text" check script.vtl structures.csv
        fi
    done <"$made/mistakes"
}

# What a script of scripts/ makes of given files, beside what is wanted: the folder, and the words of the call.
made_of() {
    case=$1
    shift
    (cd "$case" && "$@" >"$made/said" 2>"$made/told" </dev/null)
    code=$?
    wanted_code=0
    [ ! -e "$case/code" ] || read -r wanted_code <"$case/code"
    if [ "$code" != "$wanted_code" ]; then
        fail "$case: exit code $code, wanted $wanted_code: $(head -n 1 "$made/said")"
    elif ! same_bytes "$case/wanted" "$made/said"; then
        fail "$case: made otherwise"
        diff "$case/wanted" "$made/said"
    elif ! same_bytes "$case/told" "$made/told"; then
        fail "$case: other words on standard error"
        head -n 10 "$made/told"
    else
        pass
    fi
}

# What an installed program, made of this checkout and of a program, says and does.
installed() {
    rm -rf "$made/prefix"
    if ! scripts/install.sh "$made/prefix" >"$made/said" || ! cmp -s "$program" "$made/prefix/share/vtl/program"; then
        fail "scripts/install.sh: $(cat "$made/said")"
        return
    fi
    case=examples/balance
    laid_out
    if (cd "$folder" && "$made/prefix/bin/vtl" run script.vtl structures.csv in out && diff -r "$top/$case/expected" out) >"$made/said" 2>&1; then
        pass
    else
        fail "an installed program: $(head -n 3 "$made/said")"
    fi
    case $("$made/prefix/bin/vtl" --version) in
        'vtl, revision '*) pass ;;
        *) fail "an installed program has no version" ;;
    esac
}

# The results of a run that are put into a folder together.
whole() {
    case=examples/balance
    laid_out
    if (cd "$folder" && "$top/scripts/run-whole.sh" run script.vtl structures.csv in out && diff -r "$top/$case/expected" out) >"$made/said" 2>&1 &&
        [ "$(ls -d "$folder"/out*)" = "$folder/out" ]; then
        pass
    else
        fail "scripts/run-whole.sh: $(head -n 3 "$made/said")"
    fi
    echo 'R <- nowhere;' >"$folder/script.vtl"
    (cd "$folder" && VTL_EXPLAIN=0 "$top/scripts/run-whole.sh" run script.vtl structures.csv in out) >"$made/said" 2>&1
    code=$?
    if [ "$code" = 3 ] && diff -r "$case/expected" "$folder/out" >/dev/null; then pass; else fail "scripts/run-whole.sh: exit code $code"; fi
}

# A run whose standard output is closed and whose first write to a file fails, as on a device that is full: each file that is
# there holds a front of its text, and none the line of the status. It is left out where there is no C compiler.
closed_output() {
    failing_devices || return
    case=examples/balance
    laid_out
    (cd "$folder" && FAIL=write AT=1 ERROR=28 LD_PRELOAD=$made/failing.so exec "$program" "$1" script.vtl structures.csv in out) >&- 2>"$made/told" </dev/null
    code=$?
    if [ "$code" != 6 ]; then
        fail "closed standard output, by $1: exit code $code, wanted 6"
        return
    fi
    for file in "$folder"/out/*; do
        name=$(basename "$file")
        if ! cmp -s -n "$(wc -c <"$file")" "$file" "$case/expected/$name"; then
            fail "closed standard output, by $1: $name begins with $(head -c 100 "$file")"
            return
        fi
    done
    pass
}

# A call whose standard output is closed: its exit code, and its words.
without_output() {
    wanted_code=$1
    shift
    (cd "$folder" && exec "$program" "$@") >&- 2>"$made/told" </dev/null
    code=$?
    if [ "$code" = "$wanted_code" ] && written '' "$folder/out"; then pass; else fail "closed standard output, $*: exit code $code, wanted $wanted_code"; fi
}

# A replay whose standard output is closed: its files are whole, and its lines could not be written.
without_lines() {
    (cd "$folder" && exec "$program" replay script.vtl structures.csv in edits out) >&- 2>"$made/told" </dev/null
    code=$?
    if [ "$code" = 6 ] && written "$case/expected" "$folder/out"; then pass; else fail "closed standard output, replay: exit code $code, wanted 6"; fi
}

# The files that a call has written, each with its name and its text, on one line: `|` stands for LF, and `^` for CR.
files_written() {
    for file in "$folder"/out/*; do
        [ ! -e "$file" ] || printf ' %s:%s' "${file##*/}" "$(tr '\n\r' '|^' <"$file")"
    done
}

# A call over a front of a file: it must come to a code, and to a line or to files; `sql` and `lineage` to a text where nothing is
# refused before data are read.
comes_to() {
    called "$@"
    line=
    read -r line <"$made/said"
    case $way:$code:$line in
        sql:0:'SET SCALE '* | lineage:0:output,component,dataset,source)
            line=$answer
            [ "$wanted_code" -lt 4 ] || code=$wanted_code
            ;;
        *:0:)
            line=$(files_written)
            line=${line# }
            [ -z "$line" ] || { rm -rf "$folder/out" && mkdir "$folder/out"; }
            ;;
        replay:0:*)
            line=$(tr '\n' '|' <"$made/said")$(files_written)
            rm -rf "$folder/out" && mkdir "$folder/out"
            ;;
    esac
    if [ "$code:$line" = "$wanted_code:$answer" ] && written '' "$folder/out"; then
        passed=$((passed + 1))
    else
        fail "$case, $size bytes, by $way: exit code $code, $line"
    fi
}

# Each front of a file of the folder, by each of its ways: what it comes to stands in a table, as scripts/fronts.py works it out.
fronts_of() {
    case=$1
    laid_out || return
    worked_out fronts.py "$case"
    read -r cut <"$case/cut"
    while read -r way; do
        set -- "$way" script.vtl structures.csv in out
        case $way in
            sql | lineage) set -- "$way" script.vtl structures.csv ;;
            engine) set -- engine script.sql in out ;;
            replay) set -- replay script.vtl structures.csv in edits out ;;
        esac
        while IFS='	' read -r from to wanted_code answer; do
            size=$from
            while [ "$size" -le "$to" ]; do
                head -c "$size" "$case/$cut" >"$folder/$cut"
                comes_to "$@"
                size=$((size + 1))
            done
        done <"$case/answers.tsv"
    done <"$case/ways"
}

# A table that a script of scripts/ works out of a folder.
worked_out() {
    command -v python3 >/dev/null || return
    "scripts/$1" "$2" >"$made/answers"
    if cmp -s "$made/answers" "$2/answers.tsv"; then pass; else fail "$2/answers.tsv: not what scripts/$1 prints"; fi
}

# Compiles what stands before the C library, if there is a compiler.
failing_devices() {
    command -v cc >/dev/null || return
    [ -e "$made/failing.so" ] || cc -O1 -shared -fPIC -o "$made/failing.so" cases/devices/failing.c || fail 'cases/devices/failing.c is not compiled'
}

# A call of the program in which a call about a device fails: its kind, its number, the error, and the most bytes of a call.
with_failing() {
    (cd "$folder" && export FAIL="$1" AT="$2" ERROR="$3" CHUNK="$4" && shift 4 && LD_PRELOAD=$made/failing.so exec "$program" "$@") \
        >"$made/said" 2>"$made/told" </dev/null
    code=$?
}

# Each command over devices of which the call of each number of each kind fails: what it comes to stands in a table.
devices() {
    worked_out devices.py cases/devices
    failing_devices || return
    case=$top/cases/devices
    laid_out
    while IFS='	' read -r way kind error chunk from to wanted_code answer; do
        set -- "$way" script.vtl structures.csv in out
        case $way in
            sql | lineage) set -- "$way" script.vtl structures.csv ;;
            format) set -- format script.vtl ;;
            engine) set -- engine script.sql in out ;;
            replay) set -- replay script.vtl structures.csv in edits out ;;
            demo) set -- demo 2 ;;
            none) set -- ;;
        esac
        size=$from
        while [ "$size" -le "$to" ]; do
            with_failing "$kind" "$size" "$error" "$chunk" "$@"
            line=$(tr '\n' '|' <"$made/said")$(files_written)
            if [ "$code:$line" = "$wanted_code:$answer" ]; then
                passed=$((passed + 1))
            else
                fail "$way, $kind number $size fails by error $error, $chunk bytes a call: exit code $code, $line"
            fi
            case $line in *' '*.csv:*) rm -rf "$folder/out" && mkdir "$folder/out" ;; esac
            size=$((size + 1))
        done
    done <"$case/answers.tsv"
}

# The rows of tables on a page, as docs/sentences.tsv has them.
rows_of() {
    awk -v table="$2" -v header="$3" -v order="$4" '
        index($0, header) == 1 { inside = 1; getline; next }
        !/^[|]/ { inside = 0 }
        inside {
            sub(/^[|] /, "")
            sub(/ [|]$/, "")
            while (sub(/[|] [|]/, "|  |")) ;
            split($0, cell, / [|] /)
            gsub(/`/, "", cell[1])
            row = table "\t" cell[1]
            count = split(order, place, " ")
            for (i = 1; i <= count; i++) row = row "\t" (place[i] ? cell[place[i]] : "")
            print row
        }' "$1"
}

# The rows of docs/sentences.tsv of a table, with some of their cells.
sentences_of() {
    awk -F '\t' -v table="$1" -v order="$2" '
        $1 == table {
            row = $1 "\t" $2
            count = split(order, place, " ")
            for (i = 1; i <= count; i++) row = row "\t" $place[i]
            print row
        }' docs/sentences.tsv
}

# A table of a page beside docs/sentences.tsv: the page, the table, the header, the columns of both.
compared() {
    rows_of "$1" "$2" "$3" "$4" >"$made/page"
    sentences_of "$2" "$5" >"$made/sentences"
    if [ -s "$made/page" ] && cmp -s "$made/page" "$made/sentences"; then
        pass
    else
        fail "$1 and docs/sentences.tsv differ in the table $2"
        diff "$made/page" "$made/sentences"
    fi
}

# Whether a page shows some files, one behind the other, as one listing.
shown() {
    page=$1
    language=$2
    shift 2
    cat "$@" >"$made/wanted"
    if awk -v fence="\`\`\`$language" 'FNR == NR { wanted = wanted $0 "\n"; next }
        { page = page $0 "\n" }
        END { exit !index(page, fence "\n" wanted "```\n") }' "$made/wanted" "$page"; then
        pass
    else
        fail "$page: does not show $*"
    fi
}

# Whether the folder written to holds exactly the files that are wanted.
written() {
    if [ -d "$1" ]; then
        diff -r "$1" "$2"
    else
        [ ! -d "$2" ] || [ -z "$(ls -A "$2")" ]
    fi
}

# A script that is refused before any data is read: `check` says so in the same words, with the same code.
refused() {
    (cd "$1" && VTL_EXPLAIN=0 "$top/vtl" check script.vtl structures.csv) >"$made/said" 2>"$made/told"
    code=$?
    if [ "$code" = "$(cat "$1/code")" ] && [ ! -s "$made/told" ] && cmp -s "$1/line" "$made/said"; then
        pass
    else
        fail "$1: check: exit code $code: $(head -n 1 "$made/said") $(head -n 1 "$made/told")"
    fi
}

# The same of a case whose line says so.
is_refused() {
    if [ -e "$1/words" ] || [ -e "$1/setup" ] || [ ! -e "$1/line" ]; then return; fi
    case $(cat "$1/line") in
        'error: syntax '* | 'error: structures '* | 'error: type '*) refused "$1" ;;
    esac
}

# A table of texts, read by the grammar that the launcher takes from a page.
read_by_page() {
    parts=scripts/explain
    LC_ALL=C awk -f $parts/text.awk -f $parts/script.awk -f $parts/grammar.awk -f $parts/records.awk -f $parts/sql.awk \
        -f "cases/explain/$1.awk" -- "$2" >"$made/said" 2>&1
    case $(tail -n 1 "$made/said") in
        [1-9]*' passed, 0 failed') pass ;;
        *) fail "$2: read otherwise by its page: $(head -n 3 "$made/said")" ;;
    esac
}

# A number that has a bound.
within() {
    if [ "$1" -le "$2" ]; then pass; else fail "$3: $1, and at most $2 are wanted"; fi
}

wanted() { case " $names " in *" $1 "*) ;; *) return 1 ;; esac; }

# All of it, in four parts side by side.
run_all() {
    names='examples migrate launcher check sentences pages crates edits'
    for folder in "$top"/cases/*/; do
        case $(basename "$folder") in
            run | engine | translated | cut | devices | replay) ;;
            *) names="$names $(basename "$folder")" ;;
        esac
    done
    "$top/cases/run.sh" run >"$made/part.1" &
    "$top/cases/run.sh" engine translated replay session >"$made/part.2" &
    # shellcheck disable=SC2086 # the names are parted by blanks
    "$top/cases/run.sh" $names >"$made/part.3" &
    "$top/cases/run.sh" cut devices limits >"$made/part.4" &
    wait
    awk '
        /^[0-9]+ passed, [0-9]+ failed$/ { passed += $1; failed += $3; parts++; next }
        { print }
        END {
            if (parts != 4) print "a part has no verdict"
            print passed + 0 " passed, " failed + 0 " failed"
            exit failed > 0 || parts != 4
        }' "$made"/part.*
}

if [ $# = 0 ]; then
    run_all
    exit
fi
names=$*
needs_programs() {
    for name in $names; do
        case $name in
            sentences | pages | crates | edits) ;;
            *) return 0 ;;
        esac
    done
    return 1
}
if needs_programs; then
    for program in "$vtl" "$probe"; do
        [ -x "$program" ] || fail "there is no program at $program; scripts/build.sh $(basename "$program") builds it"
    done
fi
cd "$top" || exit 1
program=$vtl
for folder in cases/*/; do
    word=$(basename "$folder")
    wanted "$word" || continue
    case $word in
        run)
            for case in cases/run/*/; do
                run_all_ways "$top/${case%/}"
                is_formed_in "$case"
            done
            ;;
        lineage) for case in cases/lineage/*/; do run "$top/${case%/}"; done ;;
        replay)
            for case in cases/replay/*/; do
                replayed "$top/${case%/}"
                is_formed_in "$case"
            done
            ;;
        engine) for case in cases/engine/*/; do run "$top/${case%/}"; done ;;
        translated) for case in cases/translated/*/; do translated "$top/${case%/}"; done ;;
        explain)
            program=$top/vtl
            VTL_EXPLAIN=1
            export VTL_EXPLAIN
            for case in cases/explain/*/; do
                if [ -e "$case/mistakes.tsv" ]; then mistakes "$top/${case%/}"; else explained "$top/${case%/}"; fi
            done
            for file in cases/syntax/*.csv; do read_by_page syntax "$file"; done
            for file in cases/sql/syntax/*.csv; do read_by_page sql_syntax "$file"; done
            unset VTL_EXPLAIN
            program=$vtl
            ;;
        sql)
            for file in cases/sql/syntax/*.csv; do
                table sql_syntax "$file"
                # Printed and read again it is the same.
                table sql_again "$file"
            done
            for file in cases/sql/limits/*.csv; do table sql_syntax "$file"; done
            for file in cases/sql/depth/*.csv; do nests sql_syntax "$file" 2, 1,30; done
            for file in cases/sql/groups/*.csv; do table sql_groups "$file"; done
            for file in cases/sql/types/*.csv; do table sql_types "$file"; done
            for file in cases/sql/prefix/*.csv; do fronts sql_syntax "${file%.*}.sql" "$file"; done
            for file in cases/sql/print/*.printed; do printed print "${file%.*}.sql" "$file"; done
            ;;
        tokens | tree)
            for file in "cases/$word"/*."$word"; do
                for given in "${file%.*}".txt "${file%.*}".vtl; do
                    [ -e "$given" ] && printed "$word" "$given" "$file"
                done
            done
            ;;
        format)
            for file in cases/format/*.vtl; do
                formed "$file" "${file%.vtl}.formed"
                is_formed "${file%.vtl}.formed"
            done
            mkdir "$made/blocks"
            awk -v folder="$made/blocks" '/^```vtl$/ { file = folder "/" ++count ".vtl"; next }
                /^```$/ { file = "" }
                file != "" { print >file }' docs/*.md
            for file in "$made"/blocks/*.vtl; do is_formed "$file"; done
            # A script of 65,536 bytes, of as many tokens as these can be.
            awk -v folder="$made" 'BEGIN {
                printf "R<-union(a" >(folder "/long.vtl")
                printf "R <- union(\n  a" >(folder "/long.formed")
                for (i = 0; i < 32762; i++) {
                    printf ",a" >(folder "/long.vtl")
                    printf ",\n  a" >(folder "/long.formed")
                }
                printf ");" >(folder "/long.vtl")
                printf "\n);\n" >(folder "/long.formed")
            }'
            formed "$made/long.vtl" "$made/long.formed"
            ;;
        types) for file in cases/types/*.csv; do table types cases/types/structures.txt "$file"; done ;;
        depth) for file in cases/depth/*.csv; do nests syntax "$file" 1, 0,0; done ;;
        from)
            for case in cases/from/lint*/; do made_of "$top/${case%/}" "$top/vtl" lint structures.csv in; done
            for case in cases/from/infer*/; do
                # shellcheck disable=SC2046 # the names are parted by blanks
                made_of "$top/${case%/}" "$top/vtl" infer $(cd "$case" && echo in/*.csv)
            done
            for case in cases/from/sdmx_csv*/; do made_of "$top/${case%/}" "$top/scripts/from/sdmx_csv.sh" structures.csv D given.csv; done
            if command -v python3 >/dev/null; then
                for case in cases/from/dsd*/ cases/from/json*/; do
                    made_of "$top/${case%/}" "$top/scripts/from/structures.py" "$(cd "$case" && echo *.xml *.json | tr ' ' '\n' | grep -v '\*')"
                done
            fi
            ;;
        closed) for command in run sqlrun; do closed_output "$command"; done ;;
        devices)
            devices
            for command in run sqlrun; do closed_output "$command"; done
            case=$top/cases/devices
            laid_out
            without_output 6 sql script.vtl structures.csv
            without_output 6 lineage script.vtl structures.csv
            without_output 6 format script.vtl
            without_output 6 demo 2
            without_output 1 run
            without_output 4 run script.vtl structures.csv nowhere out
            without_lines
            ;;
        cut) for case in cases/cut/*/; do fronts_of "$top/${case%/}"; done ;;
        prefix) for file in cases/prefix/*.csv; do fronts syntax "${file%.*}.vtl" "$file"; done ;;
        *) for file in "cases/$word"/*.csv; do table "$word" "$file"; done ;;
    esac
done
if wanted migrate; then
    for file in examples/*/structures.csv cases/*/structures.csv cases/*/*/structures.csv cases/types/structures.txt; do migrated "$top/$file"; done
fi
# Replays without options that are done, and write nothing but their outputs.
if wanted session; then
    [ -x "$sessions" ] || fail "there is no program at $sessions; scripts/build.sh builds it"
    for case in cases/replay/*/ examples/*/; do
        case=${case%/}
        if [ -e "$case/line" ] && [ ! -e "$case/code" ] && [ ! -e "$case/words" ] &&
            { [ -e "$case/edits" ] || [ -e "$case/setup" ]; }; then
            by_sessions "$top/$case"
        fi
    done
fi
if wanted examples; then
    for case in examples/*/; do
        if [ -e "$case/edits" ]; then replayed "$top/${case%/}"; else run_all_ways "$top/${case%/}"; fi
        [ ! -e "$case/text.sql" ] || printed_in_sql "$case/text.sql"
        is_formed_in "$case"
    done
fi
# The launcher says what differs from a script's canonical text, and puts this into its file.
mended() {
    cp cases/format/clause.vtl "$made/mended.vtl"
    "$top/vtl" format --check "$made/mended.vtl" >"$made/said"
    code=$?
    if [ "$code" = 1 ] && grep -q '^+DS_r <- DS_1\[filter Me_1 > 5\];$' "$made/said"; then pass; else fail "vtl format --check: exit code $code"; fi
    if "$top/vtl" format --write "$made/mended.vtl" && cmp -s "$made/mended.vtl" cases/format/clause.formed; then pass; else fail "vtl format --write"; fi
    if [ -z "$("$top/vtl" format --check "$made/mended.vtl" 2>&1)" ]; then pass; else fail "vtl format --check of a canonical text"; fi
    echo 'R <- ;' >"$made/mended.vtl"
    if [ "$("$top/vtl" format --write "$made/mended.vtl" 2>&1; echo $?)" = "error: syntax after 0 statements at byte 0${newline}2" ] && [ "$(cat "$made/mended.vtl")" = 'R <- ;' ]; then
        pass
    else
        fail "vtl format --write of no script"
    fi
}
# The launcher hands its words on, and the exit code back.
if wanted launcher && [ -x "$vtl" ]; then
    program=$top/vtl
    VTL_EXPLAIN=0
    export VTL_EXPLAIN
    for case in words_none no_script filter_keeps_points_above_five sql_of_a_filter sqlrun_of_a_filter; do
        run "$top/cases/run/$case"
    done
    mended
    unset VTL_EXPLAIN
    if [ "$("$program" --version | sed 's/,* .*//')" = "vtl${newline}proved" ]; then pass; else fail "vtl --version"; fi
    program=$vtl
    installed
    whole
fi
# The pages have the sentences of which explanations are made.
if wanted sentences; then
    compared README.md status '| status | code |' '4 3 2' '3 4 6'
    compared docs/USING.md status '| status | what to do |' 2 5
    compared docs/USING.md syntax '| a text is no script where' '2 3 4' '3 4 5'
    compared docs/USING.md habit '| written | what it is |' '2 3 4' '3 4 5'
    compared docs/USING.md sql_syntax '| a text of the dialect is no script where' '2 3 4' '3 4 5'
    compared docs/SQL.md sql '| rule | what it asks |' '2 3 4' '3 4 5'
    compared docs/TYPES.md types '| rule | is broken where |' '2 3 4' '3 4 5'
    compared docs/FILES.md structures '| rule | is broken where |' '2 3 4' '3 4 5'
    compared docs/FILES.md input '| kind | where |' '2 3 4' '3 4 5'
    compared docs/FILES.md type '| type | what a field may say |' 2 3
    for case in cases/explain/mistake_*/ cases/explain/sql_syntax_other/ cases/explain/sql_type_3_of_a_query/; do
        shown docs/USING.md '' "$case/line" "$case/told"
    done
    shown docs/USING.md sql examples/density/text.sql
    shown docs/SQL.md sql examples/population/text.sql
    shown docs/SQL.md sql cases/translated/filter_and_sum/script.sql
    shown docs/SQL.md sql cases/translated/datapoint_rules_and_check/script.sql
fi
if wanted check && [ -x "$vtl" ]; then for case in cases/run/*/; do is_refused "${case%/}"; done; fi
# The pages that are taken from the files of the crates.
if wanted pages; then
    scripts/index.sh "$made/pages" || fail "scripts/index.sh: exit code $?"
    for page in INDEX.md RESTS.md LEMMAS.md index; do
        if diff -r "docs/$page" "$made/pages/$page" >"$made/said"; then
            pass
        else
            fail "docs/$page: not what scripts/index.sh writes"
            head -n 10 "$made/said"
        fi
    done
fi
# Runs at the limits and beyond them, which scripts/limits.py makes: all but the large ones by the name `limits`.
for size in limits large; do
    wanted "$size" || continue
    command -v python3 >/dev/null || continue
    set --
    [ "$size" = limits ] || set -- large
    scripts/limits.py "$made/limits" "$@" || fail "scripts/limits.py: exit code $?"
    for case in "$made"/limits/*/; do
        run_all_ways "${case%/}"
        is_refused "${case%/}"
    done
    rm -rf "${made:?}/limits"
done
# The grammars for editors, which are taken from the blocks of docs/LANGUAGE.md.
if wanted pages; then
    scripts/editors.sh "$made/editors"
    if diff -r editors "$made/editors" >"$made/said"; then
        pass
    else
        fail "editors: not what scripts/editors.sh writes"
        head -n 10 "$made/said"
    fi
fi
# What crates say of one another, and what keeps a merge short.
if wanted crates; then
    scripts/crates.sh >"$made/said"
    if cmp -s crates.txt "$made/said"; then
        pass
    else
        fail "crates.txt: not what the files of the crates name, as scripts/crates.sh prints it"
        diff crates.txt "$made/said"
    fi
    scripts/crates.sh relays >"$made/said"
    if [ -s "$made/said" ]; then
        fail "words are to be named by the crate that holds them, and are handed on here:"
        cat "$made/said"
    else
        pass
    fi
    scripts/crates.sh breaches >"$made/said"
    if [ -s "$made/said" ]; then
        fail "crates name what their layer must not know:"
        cat "$made/said"
    else
        pass
    fi
    scripts/crates.sh chain >"$made/said"
    read -r count libraries <"$made/said"
    echo "the longest chain has $count libraries: $libraries"
    within "$count" 17 "libraries in the longest chain"
fi
# An edit that a change of its crate has left behind would show nothing.
if wanted edits; then
    if edits/try.sh --stands >"$made/said" 2>&1; then
        pass
    else
        fail "edits cannot be applied:"
        cat "$made/said"
    fi
fi
echo "$passed passed, $failed failed"
[ "$failed" = 0 ]
