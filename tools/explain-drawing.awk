# Says in words what a refusal of a drawing means and where in it to look, with tools/lines.awk in front, which tells of the input.

END {
    find_lines()
    find_edges()
    if (number == 18) departs()
    else if (number < 5) counts()
    else link(edge[place])
}

# Whether a line begins with this byte and a space.
function begins(line, code) { return byte[start[line]] == code && byte[start[line] + 1] == 32 }

# The first p line, what it announces, and the e lines, their number and each by its index.
function find_edges(    line, parts) {
    problem = edges = 0
    for (line = 1; line <= lines; line++) {
        if (!problem && begins(line, 112)) problem = line
        if (begins(line, 101)) edge[edges++] = line
    }
    split(problem ? text(problem) : "", parts, " ")
    relays = parts[3]
    links = parts[4]
}

# Whether the p line stands in front of a line, and how many e lines do.
function stated(line) { return problem && problem < line }

function passed(line,    count) {
    for (count = 0; count < edges && edge[count] < line;) count++
    return count
}

# The form of a line that the drawing is to have there: of two the first byte says which.
function due(line,    first) {
    first = place > start[line] ? byte[start[line]] : 0
    if (first == 99) return "a comment line: c alone, or c, a space and any words"
    if (first == 112) return "a line p edge N M, for N relays, 1 to 1,000, and M links, at most 3,000"
    if (first == 101) return "a line e U V, for a link between the relays U and V"
    if (!stated(line)) return "a line p edge N M or a comment line"
    if (passed(line) < links) return "a line e U V, " passed(line) + 1 " of " links ", or a comment line"
    return "a comment line or the end of the file"
}

# The usual cause of a departure, where one is seen.
function cause(line, column,    words) {
    if ((words = file_cause(line)) != "") return words
    if ((words = other_kind("a drawing")) != "") return words
    if (line == 1 && (words = binary()) != "") return words
    if (place >= size) return cut_short(line, column)
    if (column == 2 && byte[place - 1] == 99 && byte[place] != 13) return "a comment line has a space after its c; put one there"
    if ((words = blank_cause(line, column)) != "") return words
    if ((words = column == 1 ? line_cause(line, text(line)) : part_cause(line, column)) != "") return words
    return byte_cause(column, "a drawing")
}

# A cause that is the binary form of a drawing, where one is seen.
function binary() {
    if (text(1) ~ /^[0-9]+$/ && (byte[start[2]] == 99 || byte[start[2]] == 112)) return "this looks like the binary DIMACS form (.col.b); make the text form of it first (the public program bin2asc does)"
    return ""
}

# The cause where the file ends too early.
function cut_short(line, column) {
    if (text(line) ~ /^(c|(p edge|e) [0-9]+ [0-9]+$)/) return "the last line end is missing; press Enter after the last line and save"
    if (column > 1) return "the file ends in the middle of a line"
    return stated(line) ? "the file ends too early: " miscounted() : "the file ends without a line p edge N M"
}

function miscounted() {
    return "line " problem " announces " of(links, "link") ", and the file has " of(edges, "e line") "; if that is right, announce " edges " there"
}

# A cause that is a line, with these words, where it does not belong, or one of other forms.
function line_cause(line, words,    first) {
    first = substr(words, 1, 1)
    if (words ~ /^e / && !problem) return "no p line stands in front of the e lines; put a line p edge N M there, with the number of relays for N and " edges " for M"
    if (words ~ /^e / && !stated(line)) return "the p line stands after this e line, in line " problem "; put it in front of all e lines"
    if (words ~ /^e /) return miscounted()
    if (words ~ /^p /) return "a second p line; the first is line " problem ". Delete one of the two"
    if (words ~ /^[ndvx] /) return "lines that begin with " first " are of other DIMACS forms and have no link; delete them"
    if (words ~ /^a /) return "lines that begin with a are of the DIMACS form for shortest paths; write e U V for each link, once and without its length"
    if (words ~ /^[%#]/) return "a comment line begins with c and a space, not with " first
    if (words ~ /^[0-9]/) return "a line of numbers alone; the line of a link begins with e and a space"
    return ""
}

# A cause that is the word after p, or what stands after the two numbers of a line.
function part_cause(line, column,    front, name) {
    front = substr(text(line), 1, column - 1)
    if (byte[place] == 32 && front ~ /^(p edge|e) [0-9]+ [0-9]+$/) return "something stands after the two numbers; take it off (weights and lengths are not read)"
    if (!match(text(line), /^p [A-Za-z0-9]+/)) return ""
    name = substr(text(line), 3, RLENGTH - 2)
    if (name == "edge") return ""
    if (name ~ /^[0-9]/) return "the word edge is missing after p"
    if (name ~ /^(sp|max|min|asn|w?cnf|tw)$/) return "p " name " is another DIMACS form; a drawing has p edge and its links in lines e U V"
    return "the word after p is " name "; write p edge" (name == "col" ? " (the other lines of such a file are the same)" : "")
}

# 3 and 4: the number of the p line. Each link in both directions may make them too many.
function counts(    repeats) {
    repeats = repeated()
    if (number == 3) wrong(problem, 8, of(relays, "relay") "; 1 to 1,000 are allowed")
    else wrong(problem, 9 + length(relays), of(links, "link") "; 3,000 are the most" (repeats && edges - repeats <= 3000 ? without(repeats) : ""))
}

# 5 to 7: the line of a link and its two relays.
function link(line,    pair, second) {
    split(text(line), pair, " ")
    second = 4 + length(pair[2])
    if (number == 5 && outside(pair[2])) wrong(line, 3, no_relay(pair[2]))
    else if (number == 5) wrong(line, second, no_relay(pair[3]))
    else if (number == 6) wrong(line, second, "this joins relay " pair[3] " to itself; delete the line and announce one link less in line " problem)
    else wrong(line, 3, "this link stands already in line " former(line) without(repeated()))
}

function outside(relay) { return relay < 1 || relay > relays + 0 }

function no_relay(relay) {
    if (relay + 0 == 0) return "relays are numbered from 1, and this is relay 0; if the file is numbered from 0, raise each number in its e lines by one"
    return "there is no relay " relay "; " (relays == 1 ? "relay 1 is all" : "the relays are 1 to " relays) " (line " problem ")"
}

# The two relays of a line, the lower first.
function pair_of(line,    pair) {
    split(text(line), pair, " ")
    return pair[2] + 0 < pair[3] + 0 ? pair[2] " " pair[3] : pair[3] " " pair[2]
}

# The earlier line with the link of a line, and whether it has the ends exchanged.
function former(line,    i) {
    for (i = 0; pair_of(edge[i]) != pair_of(line);) i++
    return edge[i] (text(edge[i]) == text(line) ? "" : ", with its ends exchanged")
}

# How many e lines repeat an earlier one.
function repeated(    i, pair, first, count) {
    count = 0
    for (i = 0; i < edges; i++) {
        pair = pair_of(edge[i])
        if (pair in first) count++
        first[pair]
    }
    return count
}

# What to do with so many of them.
function without(count) {
    return "; delete the e lines that repeat an earlier one, " count " of " edges " (many files have each link in both directions), and announce " of(edges - count, "link") " in line " problem
}
