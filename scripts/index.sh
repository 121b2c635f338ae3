#!/bin/sh
# Writes the pages that are taken from the files of the crates: index.sh [FOLDER], into docs/ or another folder.
#   INDEX.md, index/LAYER.md   the definitions and public calls by crate, with the sentences above them
#   RESTS.md                   which files of definitions each promise of the product rests on
#   LEMMAS.md                  the lemma files that other crates cite
top=$(CDPATH='' cd -- "$(dirname -- "$0")/.." && pwd) || exit 1
folder=${1:-$top/docs}
mkdir -p "$folder/index" || exit 1
folder=$(CDPATH='' cd -- "$folder" && pwd) || exit 1
rm -f "$folder"/index/*.md
cd "$top/crates" || exit 1
# The files in one order on every machine.
LC_ALL=C
export LC_ALL
parts=../scripts/index

definitions() { printf '%s\n' */specs/*.antt */src/*.rt | grep -v '/specs/Lib\.antt$'; }

lemmas() { find . -path './*/proofs/*' -name '*.antt' ! -name Lib.antt | sed 's|^\./||' | sort; }

# shellcheck disable=SC2046 # no name of a file has a blank
{
    awk -v folder="$folder" -f $parts/definitions.awk -f $parts/pages.awk ../crates.txt $(definitions) || exit
    awk -v folder="$folder" -f $parts/definitions.awk -f $parts/rests.awk ../crates.txt $(definitions) || exit
    awk -v folder="$folder" -f $parts/lemmas.awk ../crates.txt $(lemmas) || exit
}
