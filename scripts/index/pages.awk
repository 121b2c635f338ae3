# Read after definitions.awk: writes FOLDER/INDEX.md and FOLDER/index/LAYER.md.

function write_layer(l, page,    list, count, i, c) {
    print "# Definitions and public calls: " layers[l] > page
    print "" > page
    print "Printed by `scripts/index.sh`. What each is for is told by the comment above it; the number behind a definition is that of its line." > page
    count = split(crates_of[l], list, " ")
    for (i = 1; i <= count; i++) write_crate(list[i], page)
    close(page)
}

function write_crate(crate, page,    list, count, i, call, name, file, before) {
    print "\n## `" crate "`\n" > page
    print first_sentence(said_of_crate[crate]) "." > page
    count = split(calls_of[crate], list, " ")
    before = 0
    for (i = 1; i <= count; i++) {
        call = calls[list[i]]
        if (!is_public_call(call, crate)) continue
        if (!before++) print "\nPublic calls, with the names of their clauses where they have some:\n" > page
        name = call
        sub(/^.*\//, "", name)
        file = call
        sub(/\/[^\/]*$/, "", file)
        print "- [`" name "`](../../crates/" file ") " said(call) (clauses[call] == "" ? "" : " (" clauses[call] ")") > page
    }
    for (i = 1; i <= file_count; i++) if (files[i] ~ "^" crate "/") write_definitions(files[i], page)
}

function said(item) { return said_of[item] == "" ? "" : said_of[item] "." }

# The definitions of a file: those with a sentence a line each, the others together.
function write_definitions(where, page,    list, count, i, item, name, path, others) {
    path = where
    sub(/\//, "/specs/", path)
    print "\n**[" path ".antt](../../crates/" path ".antt)** " first_sentence(said_of_file[where]) ".\n" > page
    count = split(items_of[where], list, " ")
    for (i = 1; i <= count; i++) {
        item = items[list[i]]
        name = item
        sub(/^.*\//, "", name)
        if (said_of[item] == "") others = others (others == "" ? "" : ", ") "`" name "` " line_of[item]
        else print "- `" name "` " line_of[item] ": " said(item) > page
    }
    if (others != "") print "- and " others > page
}

# The files of a crate, the definitions that they hold, and what each is about.
function write_index(page,    l, list, count, i, j, crate, path, parts, k) {
    print "# Index" > page
    print "\nPrinted by `scripts/index.sh`: each crate with the files of its definitions; the number is how many a file has. The page of a layer" > page
    print "has each definition with its line, and each public call, with their sentences. [RESTS](RESTS.md) has which files a promise rests on.\n" > page
    print item_count " definitions in " file_count " files." > page
    for (l = 1; l <= layer_count; l++) {
        print "\n## [" layers[l] "](index/" layers[l] ".md): " holds[l] > page
        count = split(crates_of[l], list, " ")
        for (i = 1; i <= count; i++) {
            crate = list[i]
            print "\n`" crate "`: " first_sentence(said_of_crate[crate]) ".\n" > page
            for (j = 1; j <= file_count; j++) if (files[j] ~ "^" crate "/") {
                path = files[j]
                sub(/\//, "/specs/", path)
                split(files[j], parts, "/")
                print "- [" parts[2] "](../crates/" path ".antt) (" split(items_of[files[j]], k, " ") ") " first_sentence(said_of_file[files[j]]) "." > page
            }
        }
    }
    close(page)
}

END {
    for (i = 1; i <= item_count; i++) if (!(place_of_item[items[i]] in seen_file)) {
        seen_file[place_of_item[items[i]]]
        files[++file_count] = place_of_item[items[i]]
    }
    for (i = 1; i <= layer_count; i++) write_layer(i, folder "/index/" layers[i] ".md")
    write_index(folder "/INDEX.md")
}
