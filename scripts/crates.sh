#!/bin/sh
# Prints what the files of the crates say of one another:
#   crates.sh          crates.txt: its comments and its order as they stand, and behind each name the crates that the crate's
#                      own files name
#   crates.sh chain    the longest chain of libraries, the lowest first, behind the number of them: no merge is done before
#                      it is proved, one after the other
#   crates.sh relays   each line in which a crate hands on words of another one; the product's calls alone may be had from
#                      vtl_top, below the comment that says so
#   crates.sh breaches each crate that names one that its layer must not know, as docs/ARCHITECTURE.md says
top=$(CDPATH='' cd -- "$(dirname -- "$0")/.." && pwd) || exit 1
cd "$top/crates" || exit 1
# The libraries of the kit that are in use; a further one is put here.
kit='core csv indexmap jiff memchr std_alloc thiserror'

# The files of all crates, but for those that the tool makes.
files() { find . -name out -prune -o \( -name '*.rt' -o -name '*.antt' \) -print; }

# A line for each crate that a crate names: both names.
named() {
    files | xargs awk -v kit="$kit" '
        BEGIN {
            count = split(kit, names, " ")
            for (i = 1; i <= count; i++) known[names[i]]
            while ((getline line <"../crates.txt") > 0) if (match(line, /^[a-z0-9_]+/)) known[substr(line, 1, RLENGTH)]
        }
        function note(name) { if (name != crate && name in known && !((crate, name) in noted)) { noted[crate, name]; print crate, name } }
        FNR == 1 { split(FILENAME, parts, "/"); crate = parts[2]; is_code = FILENAME ~ /\.rt$/ }
        match($0, /use Rattle\.[a-z0-9_]+\./) { note(substr($0, RSTART + 11, RLENGTH - 12)) }
        is_code && /::/ {
            gsub(/"([^"\\]|\\.)*"/, "")
            sub(/\/\/.*/, "")
            while (match($0, /[A-Za-z0-9_]+::/)) {
                note(substr($0, RSTART, RLENGTH - 2))
                $0 = substr($0, RSTART + RLENGTH)
            }
        }'
}

listed() {
    named | LC_ALL=C sort -u | awk '
        FILENAME == "-" { below[$1] = below[$1] " " $2; next }
        match($0, /^[a-z0-9_]+:/) { print substr($0, 1, RLENGTH) below[substr($0, 1, RLENGTH - 1)]; next }
        { print }' - ../crates.txt
}

chain() {
    {
        for main in */src/main.rt; do echo "${main%%/*}"; done
        sed 's/#.*//' ../crates.txt
    } | awk -F: '
        NF == 1 { is_program[$1] }
        NF > 1 { names[++count] = $1; below[$1] = $2 }
        function measure(crate,    parts, number, i) {
            if (crate in deep) return
            number = split(below[crate], parts, " ")
            for (i = 1; i <= number; i++) if (parts[i] in below) {
                measure(parts[i])
                if (deep[parts[i]] > deep[crate]) {
                    deep[crate] = deep[parts[i]]
                    chain[crate] = chain[parts[i]] " "
                }
            }
            deep[crate]++
            chain[crate] = chain[crate] crate
        }
        END {
            for (i = 1; i <= count; i++) {
                measure(names[i])
                if (!(names[i] in is_program) && deep[names[i]] > deep[most]) most = names[i]
            }
            print deep[most], chain[most]
        }'
}

# A crate hands on its own files, and what is std's.
relays() {
    files | xargs awk '
        BEGIN { while ((getline line <"../crates.txt") > 0) if (match(line, /^[a-z0-9_]+/)) known[substr(line, 1, RLENGTH)] }
        FNR == 1 { split(FILENAME, parts, "/"); crate = parts[2]; is_product = 0 }
        FILENAME == "./vtl_top/src/lib.rt" && /^\/\/ Words of the product/ { is_product = 1 }
        match($0, /^ *pub use (Rattle\.)?[a-z0-9_]+(::|\.)/) {
            name = substr($0, RSTART, RLENGTH)
            sub(/^ *pub use (Rattle\.)?/, "", name)
            sub(/(::|\.)$/, "", name)
            if (name != crate && name in known && !is_product) print FILENAME ": " $0
        }
        /^$/ { is_product = 0 }'
}

# What a layer must not name: other layers, or crates.
breaches() {
    awk '
        function bar(layers, what,    names, count, i) {
            count = split(layers, names, " ")
            for (i = 1; i <= count; i++) barred[names[i]] = barred[names[i]] " " what " "
        }
        BEGIN {
            vtl = "facts values tables read speak check files evaluate trace"
            bar(vtl, "SQL translate replay programs")
            bar("replay", "SQL programs files vtl_files vtl_csv vtl_status vtl_interp sql_back")
            bar("facts values tables read speak check evaluate trace SQL translate", "vtl_files vtl_csv vtl_status")
            bar("files", "vtl_files vtl_status")
            bar("facts values tables read speak", "check files evaluate trace")
            bar("check", "tables files evaluate trace")
            bar("SQL", "read check files evaluate trace vtl_meaning vtl_rulings vtl_scripts vtl_readings vtl_aggregate_laws vtl_meaning_laws")
            bar("translate", "vtl_expr vtl_clause vtl_join vtl_combine vtl_group vtl_window vtl_interp")
        }
        /^# [a-zA-Z]+: / { layer = substr($2, 1, length($2) - 1) }
        match($0, /^[a-z0-9_]+:/) {
            name = substr($0, 1, RLENGTH - 1)
            layer_of[name] = layer
            below[name] = substr($0, RLENGTH + 1)
            names[++count] = name
        }
        END {
            for (i = 1; i <= count; i++) {
                name = names[i]
                number = split(below[name], lower, " ")
                for (j = 1; j <= number; j++) {
                    other = lower[j]
                    if (!(other in layer_of)) continue
                    is_structure = other == "vtl_tree" || other == "vtl_sets"
                    if (index(barred[layer_of[name]], " " other " ") ||
                        layer_of[name] != layer_of[other] && index(barred[layer_of[name]], " " layer_of[other] " ") ||
                        layer_of[name] == "SQL" && is_structure && name != "sql_engine") print name, "names", other
                }
            }
        }' ../crates.txt
}

case ${1-listed} in
    listed | chain | relays | breaches) "${1-listed}" ;;
    *) sed -n '2,9s/^# //p' "$top/scripts/crates.sh"; exit 1 ;;
esac
