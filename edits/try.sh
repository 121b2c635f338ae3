#!/bin/sh
# The edits that the gate leaves out. Each edit of edits/CRATE turns a line of that crate, and the check must refuse it.
#   try.sh [CRATE ..]            tries those of these crates, or of all: some seconds to some minutes an edit
#   try.sh --all FOLDER [CRATE ..]  tries those of all crates, or of these, by the functions that they turn, as edits/tries.py says:
#                                some seconds an edit, and two at a time (--jobs N behind FOLDER: N). FOLDER/log has what is done: a
#                                later call goes on behind it, and behind edits/answers, which a call writes anew at its
#                                end; it tries again an edit that has changed, and those of a crate that has, or one below it
#   try.sh --reaches [CRATE ..]  asks only whether each reaches the prover, or is refused for its form: some seconds an edit
#   try.sh --stands              asks only whether each can be applied, those in the gate too: seconds for all, and no prover
top=$(CDPATH='' cd -- "$(dirname -- "$0")/.." && pwd) || exit 1
cd "$top" || exit 1

stop() {
    echo "try.sh: $1" >&2
    exit 1
}

# The crates that have edits outside the gate, those below others first.
crates_with_edits() {
    sed -n 's/^\([a-z0-9_]*\):.*/\1/p' crates.txt | while read -r crate; do
        [ ! -d "edits/$crate" ] || echo "$crate"
    done
}

# Puts the files of all crates into a folder, without the edits in the gate. What was built there stays.
copied() {
    mkdir -p "$1/crates" || exit 1
    find "$1/crates" -mindepth 2 -maxdepth 2 ! -name out -exec rm -r {} +
    tar -c --exclude=out --exclude=must-fail crates crates.txt HANDLES | tar -x -C "$1" || exit 1
}

# Puts the edits of some crates into such a folder, for `rt must-fail`.
with_edits() {
    room=$1
    shift
    for crate in "$@"; do
        [ -d "edits/$crate" ] || stop "there is no folder edits/$crate"
        mkdir "$room/crates/$crate/must-fail" && cp "edits/$crate"/*.edit "$room/crates/$crate/must-fail/" || exit 1
    done
}

# Whether the compiler takes a crate with an edit: none of its functions is proved.
is_taken() {
    (cd "$copy/crates/$crate" && rt check --only '') >"$made/said" 2>&1
    grep -q '^only=' "$made/said" && ! grep -q 'error[:[]' "$made/said"
}

# Has each edit of some crates compiled, in a copy.
reaches() {
    copy=$made/copy
    copied "$copy"
    reached=0
    dead=0
    for crate in "$@"; do
        [ -d "edits/$crate" ] || stop "there is no folder edits/$crate"
        for edit in "edits/$crate"/*.edit; do
            : >"$made/said"
            if LC_ALL=C awk -v to="$copy/" -f edits/stands.awk "$edit" && is_taken; then
                reached=$((reached + 1))
            else
                dead=$((dead + 1))
                echo "$edit: does not reach the prover: $(grep -m 1 'error[:[]' "$made/said")"
            fi
            cp -R "crates/$crate/src" "crates/$crate/specs" "crates/$crate/proofs" "$copy/crates/$crate/" || exit 1
        done
    done
    echo "$reached reach the prover, $dead do not"
    [ "$dead" = 0 ]
}

# Whether each edit can be applied, and nothing else stands beside them.
stands() {
    find edits crates/*/must-fail -type f ! -name '*.edit' ! -name '*.md' ! -path edits/try.sh ! -path edits/tries.py ! -path edits/stands.awk ! -path edits/answers >"$made/odd"
    for folder in edits/*/; do
        folder=${folder%/}
        grep -q "^${folder#edits/}:" crates.txt || echo "$folder" >>"$made/odd"
    done
    sed 's/$/: is no edit of a crate/' "$made/odd"
    # shellcheck disable=SC2046 # the names have no blanks
    LC_ALL=C awk -f edits/stands.awk $(find edits crates/*/must-fail -name '*.edit' | LC_ALL=C sort) && [ ! -s "$made/odd" ]
}

word=
case ${1-} in --*)
    word=$1
    shift
    ;;
esac
if [ "$#:$word" = 0: ] || [ "$#:$word" = 0:--reaches ]; then
    # shellcheck disable=SC2046 # the names are parted by blanks
    set -- $(crates_with_edits)
fi
made=$(mktemp -d) || exit 1
trap 'rm -rf "$made"' EXIT
case $word:$# in
    --all:[1-9]*) python3 edits/tries.py "$@" ;;
    --reaches:*) reaches "$@" ;;
    --stands:0) stands ;;
    :*)
        copied "$made"
        with_edits "$made" "$@"
        cd "$made" && rt must-fail "$@"
        ;;
    *) stop 'try.sh [CRATE ..], --all FOLDER [CRATE ..], --reaches [CRATE ..] or --stands' ;;
esac
