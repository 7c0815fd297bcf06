# Says where and why a sheet departs from its form (14), with tools/lines.awk in front, which tells of the input.

END {
    find_lines()
    departs()
}

# The form of a line that the sheet is to have there: the line before it says which, and of two the second byte.
function due(line,    before) {
    before = word(line - 1)
    if (line == 1) return "a line (sheet (from A) (to B) (k K))"
    if (before == "route") return "a line (over C ..), with the circuits of the route above"
    if (before == "kept") return "the line (end)"
    if (before == "end") return "nothing, since (end) is the last line"
    if (place > start[line] + 1) return byte[start[line] + 1] == 114 ? "a line (route A B ..)" : "the line (kept N)"
    return "a line (route A B ..) or the line (kept N)"
}

# The usual cause of a departure, where one is seen.
function cause(line, column,    words, before) {
    before = word(line - 1)
    if ((words = file_cause(line)) != "") return words
    if ((words = other_kind("a sheet")) != "") return words
    if (place >= size) return cut_short(line, column)
    if ((words = blank_cause(line, column)) != "") return words
    if (column == 1 && byte[place] == 62) return "a mark of quoted mail; take it off every line"
    if (before == "end") return "something stands after the last line"
    if (before == "route" && (word(line) == "route" || word(line) == "kept")) return "the route above has no circuits: this sheet is from a planner that did not print them yet; ask for a new one"
    if (before == "route" && text(line) ~ /^\(over\)/) return "a route has at least one circuit"
    if (due(line) ~ /^a line \(route/ && text(line) ~ /^\(route [0-9]+\)/) return "a route has at least two relays"
    if (byte[place] == 10 && line > 1) return "the line ends too early (mail programs break long lines)"
    return byte_cause(column, "a sheet")
}

# The cause where the file ends too early.
function cut_short(line, column) {
    if (text(line) == "(end)") return "the last line end is missing; press Enter after (end) and save"
    if (column > 1) return "the file ends in the middle of a line"
    if (word(line - 1) == "kept") return "the file ends without its last line, (end)"
    return "the file ends too early; a sheet that is whole ends with (end)"
}
