#!/bin/sh
# Says what a line of `vtl` means: explain.sh LINE WORD .., with the words of the call. The sentences are those of
# docs/sentences.tsv, the files of scripts/explain say what is looked up for each line.
top=$(CDPATH='' cd -- "$(dirname -- "$0")/.." && pwd) || exit 1
said=$1
shift

# What is to be seen at a path that could not be read or written, in `fact`, and its folder.
seen_at() {
    case $1 in
        /*/*) folder=${1%/*} ;;
        /*) folder=/ ;;
        */*) folder=${1%/*} ;;
        *) folder=. ;;
    esac
    if [ -d "$1" ]; then
        fact="there is a folder at the path"
    elif [ ! -e "$folder" ]; then
        fact="there is no folder $folder"
    elif [ ! -d "$folder" ]; then
        fact="$folder is no folder"
    elif [ ! -x "$folder" ]; then
        fact="files in the folder $folder may not be opened"
    elif [ ! -e "$1" ]; then
        fact="the folder $folder has no such file"
        [ -w "$folder" ] || fact="the folder $folder may not be written to"
    elif [ ! -r "$1" ]; then
        fact="the file may not be read"
    elif [ ! -w "$1" ]; then
        fact="the file may not be written to"
    fi
}

# The names of files in a folder, as many as fit into the words of a call.
names_in() {
    count=0
    for near in "$1"/*; do
        [ "$((count += 1))" -le 400 ] || break
        printf '%s\n' "${near##*/}"
    done
}

# Which of the files that an explanation looks at are there to be read once more.
files_at_hand() {
    dataset=${said#error: input }
    inputs=${VTL_INPUTS:-$4}
    if [ "$1" = migrate ]; then
        [ ! -f "$2" ] || printf 'structures '
        return
    fi
    [ ! -f "$2" ] || printf 'script '
    if [ "$1" = engine ]; then
        inputs=$3
    elif [ -f "$3" ]; then
        printf 'structures '
    fi
    [ ! -f "$inputs/${dataset%% *}.csv" ] || printf 'input '
    [ "$1" != replay ] || [ ! -f "$5" ] || printf 'edits '
}

# The folder whose file of a data set has the fault that a replay told: IN, or that of an edit. It is the first over which a script
# that reads this data set alone says the same line.
folder_at_fault() {
    dataset=${said#error: input }
    dataset=${dataset%% *}
    structures=$3
    printf '%s %s\n' "$dataset" "$4" >"$VTL_ROOM/edits"
    [ ! -f "$5" ] || cat -- "$5" >>"$VTL_ROOM/edits"
    shift 6
    printf 'the_copy <- %s;\n' "$dataset" >"$VTL_ROOM/script.vtl"
    while IFS= read -r edit; do
        [ "${edit%% *}" = "$dataset" ] || continue
        again=$("$VTL_PROGRAM" run "$VTL_ROOM/script.vtl" "$structures" "${edit#* }" "$VTL_ROOM" "$@" </dev/null)
        if [ "$again" = "${said%"$newline"}" ]; then
            printf %s "${edit#* }"
            break
        fi
    done <"$VTL_ROOM/edits"
}

newline='
'
fact=
names=
case $said in
    "error: write fault: -$newline") fact="this is standard output" ;;
    'error: no file: '* | 'error: read fault: '* | 'error: write fault: '*)
        path=${said#*: *: }
        path=${path%"$newline"}
        seen_at "$path"
        [ -e "$path" ] || [ ! -d "$folder" ] || names=$(names_in "$folder")
        ;;
esac
parts=$top/scripts/explain
# Where parts of a statement are tried, and the files of edits.
VTL_ROOM=
VTL_INPUTS=
case ${1-}:$said in
    *:'error: type '* | replay:'error: input '*)
        VTL_ROOM=$(mktemp -d)
        trap 'rm -rf "$VTL_ROOM"' EXIT
        ;;
    replay:'error: edits line '*)
        [ ! -f "$5" ] || [ -z "$(tail -c 1 -- "$5")" ] || fact="the line is the last one, and no line feed ends it"
        ;;
esac
case ${1-}:$said in
    replay:'error: input '*) [ -z "${VTL_PROGRAM-}" ] || VTL_INPUTS=$(folder_at_fault "$@") ;;
esac
VTL_TOP=$top VTL_SAID=$said VTL_FACT=$fact VTL_NAMES=$names VTL_FILES=$(files_at_hand "$@" - - - - -) LC_ALL=C
export VTL_TOP VTL_SAID VTL_FACT VTL_NAMES VTL_FILES VTL_ROOM VTL_INPUTS LC_ALL
awk -f "$parts/text.awk" -f "$parts/script.awk" -f "$parts/grammar.awk" -f "$parts/records.awk" \
    -f "$parts/sql.awk" -f "$parts/sql_lines.awk" -f "$parts/narrow.awk" -f "$parts/advice.awk" -f "$parts/values.awk" \
    -f "$parts/data.awk" -f "$parts/lines.awk" -f "$parts/main.awk" -- "$@"
