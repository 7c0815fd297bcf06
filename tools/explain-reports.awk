# Says where and why a report is not as it may be (19), with tools/lines.awk in front, which tells of the input: the report's line and
# what comes after it. By the environment too: alone, which is set where the file is to have one report and nothing else.

END {
    find_lines()
    alone = ENVIRON["alone"] != ""
    place = 0
    fault = ""
    read_report()
    if (fault != "") wrong(1, digits_at + 1, fault)
    else departs()
}

# Reads the report, as far as it is as it may be: leaves the place there, and where a number is wrong the fault.
function read_report() {
    return reads("(report ") && reads_relay() && reads(" ") && reads_serial() && reads(" (sees") && reads_neighbours() && reads("))") && byte[place] == 10 && ++place
}

# Whether these words stand at the place, which is moved on as far as they do.
function reads(words,    i) {
    for (i = 1; i <= length(words); i++) {
        if (place >= size || visible(byte[place]) != substr(words, i, 1)) return 0
        place++
    }
    return 1
}

# Whether a number without a zero in front stands at the place; leaves its digits.
function reads_number() {
    digits = ""
    digits_at = place
    while (place < size && digit(byte[place])) digits = digits visible(byte[place++])
    if (digits ~ /^0./) fault = "the number " brief(digits) " has a zero in front"
    return digits != "" && fault == ""
}

# Digits that are not too many to be shown.
function brief(all) { return length(all) > 20 ? substr(all, 1, 17) "..." : all }

# A number that a relay may have.
function reads_known() {
    if (!reads_number()) return 0
    if (digits + 0 > 999) fault = "there is no relay " brief(digits) "; the highest number of a relay is 999"
    return fault == ""
}

# The relay that reports, which is kept.
function reads_relay() {
    if (!reads_known()) return 0
    relay = digits + 0
    return 1
}

function reads_serial() {
    if (!reads_number()) return 0
    if (digits + 0 > 4294967295) fault = "the serial " brief(digits) " is past 4294967295, the highest"
    return fault == ""
}

# The relays that are seen, each after a space.
function reads_neighbours(    before) {
    for (before = -1; place < size && byte[place] == 32; before = digits + 0) {
        place++
        if (!reads_known()) return 0
        if (digits + 0 == relay) fault = "relay " relay " is among those it sees; take it out"
        else if (digits + 0 <= before) fault = "neighbour " digits " is not above the one before it, " before "; neighbours stand in rising order, each once"
        if (fault != "") return 0
    }
    return 1
}

# The form of what is to stand there.
function due(line) {
    if (line > 1) return "nothing, since a report is one line"
    return "a line (report R S (sees A B ..))" (alone || place > 0 ? "" : " or the end of the file")
}

# The usual cause of a departure, where one is seen.
function cause(line, column,    words) {
    if ((words = file_cause(line + lines_before)) != "") return words
    if (!lines_before && word(1) != "report" && (words = other_kind(alone ? "a report" : "a set of reports")) != "") return words
    if (place >= size) return text_end(column)
    if ((words = blank_cause(line, column)) != "") return words
    if (line > 1) return (printable(place, place + 7) == "(report" ? "a second report stands after the first; each of the two goes into a file of its own" : "something stands after the report")
    if ((words = part_cause(column)) != "") return words
    if (byte[place] == 10) return "the line ends too early (mail programs break long lines)"
    return byte_cause(column, "a report")
}

# The cause where the file ends too early.
function text_end(column) {
    if (column > 2 && printable(place - 2, place) == "))") return "the line end is missing; press Enter after the report and save"
    return "the file ends in the middle of a line"
}

# A cause that is a mark in front of the line, or what stands between, in place of or after the parts of a report.
function part_cause(column,    front, rest) {
    front = printable(place > 6 ? place - 6 : 0, place)
    rest = printable(place, ending(1) > place + 20 ? place + 20 : ending(1))
    if (column == 1 && rest ~ /^>/) return "a mark of quoted mail; take it off every line"
    if (rest ~ /^ *(#|%|\/\/)/) return "a report has no comments; delete " (column == 1 ? "the line" : "it")
    if (front == "(sees " && rest ~ /^\)/) return "a relay that sees none has (sees), without a space"
    if (front ~ / $/ && rest ~ /^\)/) return "a space stands in front of the bracket; take it off"
    if (front ~ /\)\)$/ && rest ~ /^ *\(report/) return "two reports in a line; each has a line of its own"
    if (front ~ /\)\)$/) return "something stands after the report"
    if (front ~ /[0-9]$/ && rest ~ /^[,;-]/) return "one space is due between two numbers"
    return ""
}
