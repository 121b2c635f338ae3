#!/bin/sh
# Runs examples in which memory runs out, by the built program: no-memory.sh [EXAMPLE ..], each a folder in the form of
# examples/ or its name there; `balance` where none is named, and for `all` those of examples/ and cases/translated/, which hold
# every form and every operator, and texts of the dialect. A script is run by `run` and `sqlrun`, one with edits by `replay`, and told
# by `sql`, `lineage` and `format`; a text is run by `engine`; `demo` takes no example. Each is called once for each call that asks for memory: that call
# alone finds none, or no call from there on. Each answer is to be that the call is done, with the expected files or the whole
# text; that there is no memory, with nothing written; or that a file could not be read or written, since the system asks for
# memory too: then each file is a front of the expected one. Prints what differs, and at the end 'N passed, M failed'. It takes a
# C compiler, and a minute an example.
top=$(CDPATH='' cd -- "$(dirname -- "$0")/.." && pwd) || exit 1
vtl=$top/crates/vtl/out/vtl
[ -x "$vtl" ] || { echo "no-memory.sh: there is no program: scripts/build.sh builds it" >&2; exit 1; }
made=$(mktemp -d) || exit 1
trap 'rm -rf "$made"' EXIT
mkdir "$made/out"
passed=0
failed=0
[ "$#" != 0 ] || set -- balance
[ "$*" != all ] || set -- "$top"/examples/*/ "$top"/cases/translated/*/ demo

# Stands before the C library: the calls from number FIRST up to number LAST find no memory. How many there were is written
# to COUNT.
cat >"$made/scarce.c" <<'END'
#define _GNU_SOURCE
#include <dlfcn.h>
#include <stdio.h>
#include <stdlib.h>

static unsigned long first, last, calls;
static void *(*found)(size_t);
static void *(*grown)(void *, size_t);

__attribute__((constructor)) static void begin(void) {
    found = dlsym(RTLD_NEXT, "malloc");
    grown = dlsym(RTLD_NEXT, "realloc");
    first = strtoul(getenv("FIRST"), NULL, 10);
    last = strtoul(getenv("LAST"), NULL, 10);
    calls = 0;
}

__attribute__((destructor)) static void end(void) {
    FILE *count = getenv("COUNT") ? fopen(getenv("COUNT"), "w") : NULL;
    if (count) {
        fprintf(count, "%lu\n", calls);
        fclose(count);
    }
}

static int is_scarce(void) {
    calls++;
    return first <= calls && calls <= last;
}

void *malloc(size_t size) { return is_scarce() ? NULL : found(size); }

void *realloc(void *at, size_t size) { return is_scarce() ? NULL : grown(at, size); }
END
cc -O1 -shared -fPIC -o "$made/scarce.so" "$made/scarce.c" -ldl || exit 1

fail() {
    failed=$((failed + 1))
    echo "$1 of $example, no memory from call $first to $last: $2"
}

# Makes a call in the folder of the example where the calls for memory between these numbers find none.
scarce() {
    first=$1
    last=$2
    shift 2
    is_bare || rm -f "$made"/out/*
    (cd "$folder" && FIRST=$first LAST=$last LD_PRELOAD=$made/scarce.so exec "$vtl" "$@") >"$made/said" 2>"$made/told" </dev/null
    code=$?
    said=
    read -r said <"$made/said"
}

# Whether each file that was written is a front of the one that is expected.
are_fronts() {
    for file in "$made"/out/*; do
        [ ! -e "$file" ] || cmp -s -n "$(wc -c <"$file")" "$file" "$folder/expected/${file##*/}" || return 1
    done
}

# Whether nothing was written.
is_bare() {
    for file in "$made"/out/*; do [ ! -e "$file" ] || return 1; done
}

# Compares what the call has come to with what may be.
judged() {
    case $code:$said in
        0:*) if ! same "$1"; then fail "$1" 'done, with something else'; return; fi ;;
        7:'error: memory') if ! is_bare; then fail "$1" 'answered, but with files'; return; fi ;;
        6:'error: read fault: '*) if ! is_bare; then fail "$1" 'a read fault, but with files'; return; fi ;;
        6:'error: write fault: '*) if ! are_fronts; then fail "$1" 'a write fault, with other files'; return; fi ;;
        *) fail "$1" "exit code $code, and the line '$said'"; return ;;
    esac
    passed=$((passed + 1))
    [ "$code" = 0 ] || refused=$((refused + 1))
}

# Whether a call that is done has said and written what it is to say and write.
same() {
    same_text || return
    if [ -e "$made/whole" ] && [ "$1" != replay ]; then is_bare; else diff -r "$folder/expected" "$made/out" >/dev/null; fi
}

same_text() {
    if [ -e "$made/whole" ]; then cmp -s "$made/whole" "$made/said"; else [ ! -s "$made/said" ]; fi
}

# A call with these words: once as it is, and then without memory at each place. What it prints then is what it printed at first.
without_memory() {
    COUNT=$made/count
    export COUNT
    rm -f "$made/whole"
    scarce 0 0 "$@"
    [ "$code" != 0 ] || [ ! -s "$made/said" ] || cp "$made/said" "$made/whole"
    judged "$1"
    unset COUNT
    read -r count <"$made/count"
    refused=0
    call=1
    while [ "$call" -le "$count" ]; do
        scarce "$call" "$call" "$@"
        judged "$1"
        scarce "$call" "$count" "$@"
        judged "$1"
        call=$((call + 1))
    done
    [ "$refused" != 0 ] || fail "$1" 'never answered'
}

for example; do
    folder=$example
    [ -d "$folder" ] || folder=$top/examples/$example
    if [ "$example" = demo ]; then
        folder=$top
        without_memory demo 3
        continue
    fi
    if [ -e "$folder/script.vtl" ]; then
        if [ -e "$folder/edits" ]; then
            without_memory replay script.vtl structures.csv in edits "$made/out"
        else
            for way in run sqlrun; do without_memory "$way" script.vtl structures.csv in "$made/out"; done
        fi
        for way in sql lineage; do without_memory "$way" script.vtl structures.csv; done
        without_memory format script.vtl
    fi
    [ -e "$folder/script.vtl" ] || [ -e "$folder/script.sql" ] || { echo "no-memory.sh: $folder has no script" >&2; exit 1; }
    [ ! -e "$folder/script.sql" ] || without_memory engine script.sql in "$made/out"
done
echo "$passed passed, $failed failed"
[ "$failed" = 0 ]
