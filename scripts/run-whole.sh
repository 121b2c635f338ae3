#!/bin/sh
# Runs the words of `run`, `sqlrun`, `replay` or `engine` so that the results are put into OUT all together or not at all:
# run-whole.sh run SCRIPT STRUCTURES IN OUT .. They are written to a folder beside OUT first, and renamed into it once the
# last one was written. The exit code is that of the call.
top=$(CDPATH='' cd -- "$(dirname -- "$0")/.." && pwd) || exit 1
case ${1-}:$# in
    run:[0-4] | sqlrun:[0-4] | replay:[0-5] | engine:[0-3]) place=0 ;;
    run:* | sqlrun:*) place=5 ;;
    replay:*) place=6 ;;
    engine:*) place=4 ;;
    *) place=0 ;;
esac
[ "$place" = 0 ] || eval "out=\${$place}"
# What has no folder to write to is refused by the call itself.
[ "$place" != 0 ] && [ -d "$out" ] || exec "$top/vtl" "$@"
new=$(mktemp -d "${out%/}.new.XXXXXX") || exit 6
trap 'rm -rf "$new"' EXIT
trap 'exit 130' INT
trap 'exit 143' TERM
count=$#
while [ "$count" -gt 0 ]; do
    word=$1
    shift
    [ "$((place -= 1))" != 0 ] || word=$new
    set -- "$@" "$word"
    count=$((count - 1))
done
"$top/vtl" "$@"
code=$?
if [ "$code" = 0 ]; then
    for file in "$new"/*; do
        [ ! -e "$file" ] || mv -f "$file" "$out/" || exit 6
    done
fi
exit "$code"
