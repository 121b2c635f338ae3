# Read after definitions.awk: writes FOLDER/RESTS.md.

# ---- what is reached from a definition, in the order in which a reader meets it

# Puts what a list of groups and types reaches behind what was reached, as reach[name, 1 ..].
function go_down(name,    place, group, list, count, i) {
    for (place = 1; place <= reached[name]; place++) {
        group = reach[name, place]
        count = split(below[group], list, " ")
        for (i = 1; i <= count; i++) meet(name, list[i])
    }
}

function meet(name, group) {
    if ((name, group) in is_reached) return
    is_reached[name, group]
    reach[name, ++reached[name]] = group
}

# What a text in a file of the program reaches.
function reach_from(name, text, file,    i) {
    names_in(text, file)
    for (i = 1; i <= noted_count; i++) meet(name, noted[i])
    go_down(name)
}

# ---- lists that several promises share

function list_of(name, sentence, definitions,    parts, count, i) {
    lists[++list_count] = name
    sentence_of[name] = sentence
    count = split(definitions, parts, " ")
    for (i = 1; i <= count; i++) {
        if (!(parts[i] in line_of)) {
            print "scripts/index: there is no definition " parts[i] | "cat >&2"
            failed = 1
            exit 1
        }
        meet(name, group_of[parts[i]])
    }
    go_down(name)
}

function contains(outer, inner,    i) {
    if (reached[inner] > reached[outer]) return 0
    for (i = 1; i <= reached[inner]; i++) if (!((outer, reach[inner, i]) in is_reached)) return 0
    return 1
}

# The lists that a closure contains whole, but for those within others of them, as parts_of[1 ..].
function take_parts(name,    i, j, is_within) {
    part_count = 0
    for (i = 1; i <= list_count; i++) holds_list[i] = lists[i] != name && contains(name, lists[i])
    for (i = 1; i <= list_count; i++) if (holds_list[i]) {
        is_within = 0
        for (j = 1; j <= list_count; j++) if (j != i && holds_list[j] && contains(lists[j], lists[i])) is_within = 1
        if (!is_within) parts_of[++part_count] = lists[i]
    }
}

function is_in_parts(group,    i) {
    for (i = 1; i <= part_count; i++) if ((parts_of[i], group) in is_reached) return 1
    return 0
}

function file_of(group,    file) {
    file = group
    sub(/\/[^\/]*$/, "", file)
    return file
}

# What is left of a closure beside its lists: crates with their files, and crates with their types.
function take_rest(name,    i, group, file, parts, seen, crate, line) {
    rest_count = type_count = 0
    for (i in rest_of) delete rest_of[i]
    for (i in types_of) delete types_of[i]
    for (i = 1; i <= reached[name]; i++) {
        group = reach[name, i]
        if (is_in_parts(group)) continue
        split(group, parts, "/")
        crate = parts[1]
        if (index(group, "/src/")) {
            if (!(crate in types_of)) types[++type_count] = crate
            types_of[crate] = types_of[crate] (types_of[crate] == "" ? "" : ", ") "`" parts[4] "`"
            continue
        }
        file = file_of(group)
        if (file in seen) continue
        seen[file]
        if (!(crate in rest_of)) rest[++rest_count] = crate
        rest_of[crate] = rest_of[crate] (rest_of[crate] == "" ? "" : ", ") link(file)
    }
}

# A file as the page names it, with a link where the page is a list.
function link(file,    parts) {
    split(file, parts, "/")
    return are_linked ? "[" parts[2] "](../crates/" parts[1] "/specs/" parts[2] ".antt)" : "`" parts[2] "`"
}

function number(count, word) { return count " " word (count == 1 ? "" : "s") }

# How much there is to read.
function size_of(name,    i, group, list, definitions, lines, files_met, seen, file) {
    for (i = 1; i <= reached[name]; i++) {
        group = reach[name, i]
        if (index(group, "/src/")) continue
        definitions += split(members[group], list, " ")
        lines += height[group]
        file = file_of(group)
        if (!(file in seen)) { seen[file]; files_met++ }
    }
    if (!files_met) return "none"
    return number(definitions, "definition") " in " number(files_met, "file") ", " number(lines, "line")
}

function named_lists(    i, text) {
    for (i = 1; i <= part_count; i++) text = text (i > 1 ? ", " : "") "[" parts_of[i] "](#" anchor(parts_of[i]) ")"
    return text
}

function anchor(name) { gsub(/ /, "-", name); return tolower(name) }

function write_list(name,    i, text) {
    are_linked = 1
    take_parts(name)
    take_rest(name)
    are_linked = 0
    print "\n### " name "\n" > page
    print sentence_of[name] "; " size_of(name) "." (part_count ? " It holds " named_lists() ", and of its own:" : "") "\n" > page
    print "| crate | files |\n|---|---|" > page
    for (i = 1; i <= rest_count; i++) print "| `" rest[i] "` | " rest_of[rest[i]] " |" > page
    if (type_count) {
        text = ""
        for (i = 1; i <= type_count; i++) text = text (i > 1 ? "; of `" : "of `") types[i] "` " types_of[types[i]]
        print "\nTypes of the program: " text "." > page
    }
}

function row(name,    i, text) {
    take_parts(name)
    take_rest(name)
    text = named_lists()
    for (i = 1; i <= rest_count; i++) text = text (text == "" ? "" : "; ") "`" rest[i] "`: " rest_of[rest[i]]
    return text
}

# ---- promises

# What all clauses of a call rest on, put to what a name has reached already.
function reach_from_call(name, call,    list, count, i) {
    count = split(clause_names[call], list, " ")
    for (i = 1; i <= count; i++) reach_from(name, text_of[call, list[i] == "-" ? "" : list[i]], file_of(call))
}

function print_row(promise, name) {
    print "| " promise " | " size_of(name) " | " row(name) " |" > page
}

# A law is one promise; of another call the clauses that rest on the same are one.
function write_call(call,    list, count, i, j, key, name, done, clauses_said) {
    name = call
    sub(/^.*\//, "", name)
    if (call in is_law) {
        reach_from_call(call, call)
        print_row("`" name "`", call)
        return
    }
    count = split(clause_names[call], list, " ")
    for (i = 1; i <= count; i++) reach_from(call "/" list[i], text_of[call, list[i] == "-" ? "" : list[i]], file_of(call))
    for (i = 1; i <= count; i++) if (!(i in done) && list[i] != "requires") {
        key = call "/" list[i]
        clauses_said = list[i] == "-" ? "" : ": `" list[i] "`"
        for (j = i + 1; j <= count; j++) if (contains(key, call "/" list[j]) && contains(call "/" list[j], key)) {
            done[j]
            clauses_said = clauses_said ", `" list[j] "`"
        }
        print_row("`" name "`" clauses_said, key)
    }
}

function write_calls(crate, only,    list, count, i, call) {
    count = split(calls_of[crate], list, " ")
    for (i = 1; i <= count; i++) {
        call = calls[list[i]]
        if (!is_public_call(call, crate) || call !~ only) continue
        write_call(call)
        reach_from_call("the top", call)
    }
}

function write_crate(crate,    list, count, i) {
    count = split(calls_of[crate], list, " ")
    for (i = 1; i <= count; i++) if (is_public_call(calls[list[i]], crate)) reach_from_call(crate, calls[list[i]])
    if (reached[crate]) print_row("`" crate "`", crate)
}

# The files of which the promises of the top reach nothing.
function write_working_parts(    i, j, count, list, crate, parts, reached_file, text) {
    for (i = 1; i <= reached["the top"]; i++) reached_file[file_of(reach["the top", i])]
    for (i = 1; i <= layer_count; i++) {
        count = split(crates_of[i], list, " ")
        for (j = 1; j <= count; j++) {
            crate = list[j]
            text = ""
            for (f = 1; f <= file_count; f++) if (files[f] ~ "^" crate "/" && !(files[f] in reached_file)) {
                split(files[f], parts, "/")
                text = text (text == "" ? "" : ", ") link(files[f])
            }
            if (text != "") print "| `" crate "` | " text " |" > page
        }
    }
}

END {
    if (failed) exit 1
    link_groups()
    for (i = 1; i <= item_count; i++) if (!(place_of_item[items[i]] in seen_file)) {
        seen_file[place_of_item[items[i]]]
        files[++file_count] = place_of_item[items[i]]
    }
    page = folder "/RESTS.md"
    list_of("operators", "The value of a scalar operator on cells, with its faults", "vtl_cell/Scalars/scalar_of")
    list_of("expressions", "The value of a component expression at a point", "vtl_tree/Value/value")
    list_of("scripts", "Which tree a text of VTL spells, and what its fault is where it spells none", "vtl_parser/Parsed/IsScript vtl_parser/Parsed/IsFaulty")
    list_of("structures file", "What a structures file declares, or its first fault", "vtl_csv/StructuresFile/structures_of_file")
    list_of("typing", "What a script is typed as, or the first rule that it breaks", "vtl_check/Script/script_typed")
    list_of("accepted script", "What a script and its structures file come to before data is read", "vtl_top/Expected/typed_step")
    list_of("meaning", "What a typed script means over data sets: results, or a fault", "vtl_scripts/Meaning/meaning")
    list_of("data set file", "The rows of a CSV file of a data set, or its first fault", "vtl_csv/InputFile/dataset_rows")
    list_of("CSV text", "The text that a data set is written as", "vtl_csv/CsvText/csv_of")
    list_of("run", "What the words `run` and `sqlrun` come to over the held files", "vtl_top/Expected/run_step")
    list_of("SQL scripts", "Which tree a text of the dialect spells, and what its fault is where it spells none", "sql_tree/Texts/IsScript sql_tree/Texts/IsFaulty")
    list_of("SQL typing", "Whether a script of the dialect is typed, or its first fault", "sql_check_parts/Statements/script_fault")
    list_of("SQL meaning", "What a script of the dialect means over tables: exports, or a fault", "sql_meaning/Scripts/script_value")
    list_of("text for a script", "What a text in SQL of a script of VTL is", "sql_back/Texts/IsTextFor")
    list_of("engine run", "What the words `engine` come to over the held files", "vtl_top/SqlRun/engine_step")
    list_of("words", "What the words of a command line ask for, and what that comes to", "vtl_top/Words/command_of vtl_top/Forms/asked_step")
    list_of("how a call ends", "What a call leaves of files and sink, by its status", "vtl_top/Answered/Ends")
    print "# What promises rest on\n" > page
    print "Printed by `scripts/index.sh`. A promise says what the definitions say that its clause names, and those that these name. So who has" > page
    print "judged the clause and the files of its row has judged the promise; how it is proved need not be read. Find the promise in" > page
    print "[PROOFS](PROOFS.md), read its clause at the call in `src/`, and then the files here, which stand in the order in which a reader" > page
    print "meets them from the clause down. Of a file a promise may need some definitions alone. What they speak of beside definitions" > page
    print "are types of the program, in the `src/` of their crates, std's words, and the records of `csv`." > page
    print "\n## The top call\n" > page
    print "The clauses of the calls speak of files and a sink by the meanings in `vtl_files/src/files.rt` and `sink.rt`.\n" > page
    print "| promise | to read | where |\n|---|---|---|" > page
    write_calls("vtl_top", "/(top|laws|agreement)\\.rt/")
    write_calls("vtl_status", "/")
    print "\n## Lists that several promises share" > page
    for (i = 1; i <= list_count; i++) write_list(lists[i])
    print "\n## Each crate\n" > page
    print "What the promises of all public calls of a crate rest on together.\n" > page
    print "| crate | to read | where |\n|---|---|---|" > page
    for (i = 1; i <= layer_count; i++) {
        count = split(crates_of[i], numbers, " ")
        for (j = 1; j <= count; j++) write_crate(numbers[j])
    }
    print "\n## Working parts\n" > page
    print "Files of definitions that contracts between functions name, and no promise of the top call: where one is wrong, the proof of a" > page
    print "promise does not go through. A promise of a lower crate may rest on them.\n" > page
    print "| crate | files |\n|---|---|" > page
    write_working_parts()
    close(page)
}
