#!/bin/sh
# Builds the program, which stays as crates/vtl/out/vtl: build.sh proves all crates, runs all their tests and is the gate
# of a change as well; what it has proved is kept on this machine for every checkout, also where it is interrupted.
# build.sh --unproved builds it in minutes and proves nothing: the program is out/unproved/vtl.
top=$(CDPATH='' cd -- "$(dirname -- "$0")/.." && pwd) || exit 1

fail() {
    echo "build.sh: $1" >&2
    exit 1
}

# The program that words of a process run over the script of a room: the one before `run`.
program_of() {
    { tr '\0' '\n' <"$1"; } 2>/dev/null | awk -v script="$2/script" '
        $0 == script && last == "run" && /^\// { print program; exit }
        { program = last; last = $0 }'
}

# The program as `rt try` compiles it, with checks and no proofs. It keeps none: it is held up at a script that nobody
# writes, and copied from where it runs.
build_unproved() {
    room=$(mktemp -d) || exit 1
    trap 'kill "$building" 2>/dev/null; rm -rf "$room"' EXIT
    mkfifo "$room/script" || exit 1
    echo "building the program without proofs, which takes some two minutes" >&2
    (cd "$top/crates/vtl" && exec rt try --steps 1 -- run "$room/script" "$room/script" "$room" "$room") >"$room/log" 2>&1 &
    building=$!
    while kill -0 "$building" 2>/dev/null; do
        for words in $(grep -ls "$room/script" /proc/[0-9]*/cmdline); do
            made=$(program_of "$words" "$room")
            [ -f "$made" ] && [ -x "$made" ] && cmp -s -n 4 "$made" /bin/sh || continue
            mkdir -p "$top/out/unproved" && cp "$made" "$top/out/unproved/new" || exit 1
            mv "$top/out/unproved/new" "$top/out/unproved/vtl"
            rt version >"$top/out/unproved/kit"
            words=${words%/cmdline}
            kill "${words#/proc/}"
            echo "the program is $top/out/unproved/vtl" >&2
            exit 0
        done
        sleep 1
    done
    tail -n 5 "$room/log" >&2
    fail "no program was built"
}

command -v rt >/dev/null || fail 'rt, the command of the Rattle kit, is not on the path'
case $#:${1-} in
    0:) ;;
    1:--unproved) build_unproved ;;
    *) fail 'build.sh [--unproved]' ;;
esac
cat >&2 <<'END'
proving all crates and building the program: from nothing this takes over an hour on four cores, and some minutes where it
was done on this machine before. `scripts/build.sh --unproved` builds a program in two minutes that runs the same and proves nothing.
END
cd "$top" || exit 1
rt ci
status=$?
[ -x crates/vtl/out/vtl ] || fail 'no program was built'
rt version | sed 's/^/proved with /' >crates/vtl/out/kit
exit "$status"
