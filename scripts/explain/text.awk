# The sentences of docs/sentences.tsv, and how texts are shown. Texts are bytes: the locale is C.

# The path of a page.
function page(name) { return top "/docs/" name }

# Reads what is broken, an example and what to change, by table and key.
function read_sentences(path,    line, cell) {
    while ((getline line < path) > 0) {
        split(line, cell, "\t")
        if (cell[1] == "habit") habits[cell[2]]
        broken[cell[1], cell[2]] = plain(cell[3])
        example[cell[1], cell[2]] = plain(cell[4])
        change[cell[1], cell[2]] = plain(cell[5])
    }
    close(path)
}

# A cell of a page without its links and its `\` before `|`.
function plain(cell,    link) {
    gsub(/\\[|]/, "|", cell)
    while (match(cell, /\[[^]]*\]\([^)]*\)/)) {
        link = substr(cell, RSTART + 1, RLENGTH - 1)
        sub(/\].*/, "", link)
        cell = substr(cell, 1, RSTART - 1) link substr(cell, RSTART + RLENGTH)
    }
    return cell
}

# A line of the explanation, with what it tells; nothing where there is nothing to tell.
function tell(label, text) {
    if (text != "") printf "%-10s%s\n", label (label == "" ? "" : ":"), text
}

# What a status says, and what to do.
function tell_status(status) {
    tell("broken", broken["status", status])
    tell("change", change["status", status])
}

# What a rule says, with an example of a table of rules.
function tell_rule(table, rule) {
    tell("broken", "rule " rule ": " broken[table, rule])
    tell("example", example[table, rule])
    tell("change", change[table, rule])
}

# A text on one line, with `?` for what is not UTF-8 and blanks for control characters; what is longer is cut between two
# characters.
function shown(text, most) {
    if (!is_text(text)) gsub(/[\200-\377]/, "?", text)
    gsub(/[\001-\037\177]/, " ", text)
    gsub(/\302[\200-\237]/, " ", text)
    if (length(text) <= most) return text
    while (most > 1 && substr(text, most + 1, 1) ~ /[\200-\277]/) most--
    return substr(text, 1, most) " .."
}

# A text between two marks of code.
function code(text) { return "`" shown(text, 64) "`" }

# How many characters a text has.
function characters(text) {
    gsub(/[\200-\277]/, "", text)
    return length(text)
}

# How many single letters differ between two words, or 3 where they are more.
function distance(left, right,    above, i, j, least, corner, cost) {
    if (length(left) - length(right) > 2 || length(right) - length(left) > 2) return 3
    for (j = 0; j <= length(right); j++) above[j] = j
    for (i = 1; i <= length(left); i++) {
        corner = above[0]
        least = above[0] = i
        for (j = 1; j <= length(right); j++) {
            cost = corner + (substr(left, i, 1) != substr(right, j, 1))
            corner = above[j]
            if (above[j] + 1 < cost) cost = above[j] + 1
            if (above[j - 1] + 1 < cost) cost = above[j - 1] + 1
            above[j] = cost
            if (cost < least) least = cost
        }
        if (least > 2) return 3
    }
    return above[length(right)]
}

# The word of a set that is nearest to another, or nothing. Letters of either case count as one; of a short word the first
# letter is the same.
function nearest(word, set,    other, found, best, apart) {
    best = length(word) > 4 ? 3 : 2
    for (other in set) {
        if (length(word) < 4 && tolower(substr(other, 1, 1)) != tolower(substr(word, 1, 1))) continue
        apart = distance(tolower(word), tolower(other))
        if (apart < best || (apart == best && found != "" && other < found)) {
            best = apart
            found = other
        }
    }
    return found
}

# `word`, and the word of a set that may be meant.
function with_nearest(word, set,    other) {
    other = nearest(word, set)
    return code(word) (other == "" ? "" : " (is " code(other) " meant?)")
}

# Whether a text is UTF-8.
function is_text(text) {
    gsub(/[\302-\337][\200-\277]/, "", text)
    gsub(/\340[\240-\277][\200-\277]|\355[\200-\237][\200-\277]|[\341-\354\356\357][\200-\277][\200-\277]/, "", text)
    gsub(/(\360[\220-\277]|[\361-\363][\200-\277]|\364[\200-\217])[\200-\277][\200-\277]/, "", text)
    return text !~ /[\200-\377]/
}

# A path that no awk takes for a stream of its own; nothing where the file cannot be read once more.
function file_path(path) {
    if (!(path in readable)) return ""
    return path ~ /^[.\/]/ ? path : "./" path
}

# A list, and one more.
function joined(list, item) { return list == "" ? item : list ", " item }

# Puts words that are parted by a mark into a set.
function include(set, words, mark,    word, count) {
    count = split(words, word, mark == "" ? " " : mark)
    while (count > 0) set[word[count--]]
}

# Facts, and one more.
function with_fact(told, more) { return more == "" ? told : (told == "" ? "" : told "; ") more }
