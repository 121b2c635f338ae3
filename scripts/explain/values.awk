# The values of fields, as docs/FILES.md says which texts a kind has. Numbers are texts of digits, since those of an awk are
# not exact.

# A numeral as its sign, its digits and the place of the point among them, in `sign`, `digits` and `point`; whether it is one.
function takes_numeral(text,    exponent, front) {
    if (length(text) > 64 || text !~ /^[-+]?([0-9]+[.]?[0-9]*|[.][0-9]+)([eE][-+]?[0-9][0-9]?[0-9]?)?$/) return 0
    sign = substr(text, 1, 1) == "-" ? "-" : ""
    sub(/^[-+]/, "", text)
    exponent = 0
    if (match(text, /[eE]/)) {
        exponent = substr(text, RSTART + 1) + 0
        text = substr(text, 1, RSTART - 1)
    }
    front = text
    sub(/[.].*/, "", front)
    digits = text
    sub(/[.]/, "", digits)
    point = length(front) + exponent
    return 1
}

# The digits up to a place, with zeros behind them where there are fewer; more than `most` are not written out.
function digits_up_to(place, most,    kept) {
    if (place <= 0) return ""
    kept = substr(digits, 1, place)
    sub(/^0+/, "", kept)
    if (kept == "") return ""
    while (length(digits) < place && length(kept) <= most) {
        kept = kept "0"
        place--
    }
    return kept
}

# The digits behind a place, without zeros at their end.
function digits_behind(place,    rest) {
    rest = place < 0 ? "0" digits : substr(digits, place + 1)
    sub(/0+$/, "", rest)
    return rest
}

# A number in units of its last place as a text of digits, or `none` and `range`.
function number_of(text,    kept, rest, up) {
    if (!takes_numeral(text)) return "none"
    kept = digits_up_to(point + scale, 19)
    rest = digits_behind(point + scale)
    up = rounding != "down" && rest >= "5"
    if (rounding == "half_even" && rest == "5") up = kept ~ /[13579]$/
    if (up) kept = one_more(kept)
    if (length(kept) > 18) return "range"
    return kept == "" ? "0" : sign kept
}

# An integer as a text of digits, or `none`, `fraction` and `range`.
function integer_of(text,    kept) {
    if (!takes_numeral(text)) return "none"
    if (digits_behind(point) != "" && digits ~ /[1-9]/) return "fraction"
    kept = digits_up_to(point, 19)
    if (length(kept) > 18 - scale) return "range"
    return kept == "" ? "0" : sign kept
}

# The number after one that is a text of digits.
function one_more(text,    place, rest) {
    place = length(text)
    while (place > 0 && substr(text, place, 1) == "9") place--
    rest = substr(text, place + 1)
    gsub(/9/, "0", rest)
    return (place == 0 ? "1" : substr(text, 1, place - 1) (substr(text, place, 1) + 1)) rest
}

# A day as its text, or `none`.
function date_of(text,    year, month, day, days) {
    if (text !~ /^[0-9][0-9][0-9][0-9]-[0-9][0-9]-[0-9][0-9]$/) return "none"
    year = substr(text, 1, 4) + 0
    month = substr(text, 6, 2) + 0
    day = substr(text, 9) + 0
    days = month == 2 ? (year % 4 == 0 && (year % 100 != 0 || year % 400 == 0) ? 29 : 28) : (month ~ /^(4|6|9|11)$/ ? 30 : 31)
    return month >= 1 && month <= 12 && day >= 1 && day <= days ? text : "none"
}

# A period as the text that is written, or `none`.
function period_of(text) {
    if (text !~ /^[0-9][0-9][0-9][0-9](-|$)/) return "none"
    if (text ~ /^....$/) return text "-A1"
    if (text ~ /^....-(0[1-9]|1[0-2])$/) return substr(text, 1, 5) "M" substr(text, 6)
    return text ~ /^....-(A1|S[12]|Q[1-4]|M0[1-9]|M1[0-2])$/ ? text : "none"
}

# A field as a text that is the same for equal values of a type, or what is wrong with it.
function value_of(type, text) {
    if (type == "string") return text
    if (type == "integer") return integer_of(text)
    if (type == "number") return number_of(text)
    if (type == "date") return date_of(text)
    if (type == "time_period") return period_of(text)
    return tolower(text) ~ /^(true|false)$/ ? tolower(text) : "none"
}

# Whether a value is none.
function is_wrong(value) { return value == "none" || value == "fraction" || value == "range" }
