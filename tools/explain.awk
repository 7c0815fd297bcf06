# Says in words what a refusal means and where in the network file to look, with tools/lines.awk in front, which tells of the input. By
# the environment too: typed_FROM, typed_TO, typed_K; greatest, the most routes that there is a sheet for, with 13.

END {
    find_lines()
    find_counts()
    if (number == 2) departs()
    else if (number == 3) header("announces " of(relays, "relay") "; 1 to 1,000 are allowed")
    else if (number == 4) header("announces " of(links, "link") "; 3,000 are the most. Pass the file on to the network planners")
    else if (number >= 5 && number <= 7) link()
    else if (number == 9) wish("K is " ENVIRON["typed_K"] "; 1 to 32 can be asked for")
    else if (number == 10) ends()
    else if (number == 11) wish("FROM and TO are the same relay, " ENVIRON["typed_FROM"])
    else if (number == 13) apart()
    else if (number == 16) out_lines()
    else if (number == 17) ends_withdrawn()
    else wish("docs/DESK.md may tell more")
}

# What is wrong with a wish, for this file.
function wish(words) { refused(ENVIRON["file"] ": " words) }

# What line 1 announces, where it is of its form, and the lines (out R) after the links.
function find_counts(    parts) {
    relays = links = ""
    outs = 0
    if (text(1) ~ /^\(net \(relays [0-9]+\) \(links [0-9]+\)\)$/) {
        split(text(1), parts, /[^0-9]+/)
        relays = parts[2] + 0
        links = parts[3] + 0
        find_outs()
    }
}

# How many lines (out R) there are, the relay of each, and the first line of each relay.
function find_outs(    line, parts) {
    for (line = links + 2; line <= lines && text(line) ~ /^\(out [0-9]+\)$/; line++) {
        split(text(line), parts, /[^0-9]+/)
        outs++
        relay_out[line] = parts[2] + 0
        if (!(relay_out[line] in line_out)) line_out[relay_out[line]] = line
    }
}

function header(words) { refused(at(1) ", " words) }

# The form of a line that the file is to have there: after the links the second byte says which of two.
function due(line) {
    if (line == 1) return "a line (net (relays N) (links M))"
    if (line <= links + 1) return "a line (link A B)"
    if (text(line - 1) == "(end)") return "nothing, since (end) is the last line"
    if (place > start[line] + 1) return byte[start[line] + 1] == 111 ? "a line (out R)" : "the line (end)"
    return "a line (out R) or the line (end)"
}

# The usual cause of a departure, where one is seen.
function cause(line, column,    words) {
    if ((words = file_cause(line)) != "") return words
    if ((words = other_kind("a network file")) != "") return words
    if (place >= size) return cut_short(line, column)
    if (line > 1 && text(line - 1) == "(end)" && size > longest) return "something stands after the last line, and " too_long()
    if ((words = blank_cause(line, column)) != "") return words
    if ((words = rest_cause(line, column)) != "") return words
    if (line > 1 && (words = line_cause(line)) != "") return words
    return byte_cause(column, "a network file") (size > longest ? "; besides, " too_long() : "")
}

# A longest network file has 54,929 bytes: 1,000 relays, all withdrawn, and 3,000 links, all numbers of three digits.
BEGIN { longest = 54929 }

function too_long() { return "the file has " (size < 1000000 ? size : "1,000,000 or more") " bytes, where the longest network file has 54,929" }

# A cause that is a comment, or what stands after a whole line, where one is seen.
function rest_cause(line, column,    rest, front) {
    front = printable(start[line], place)
    rest = printable(place, ending(line) > place + 60 ? place + 60 : ending(line))
    if (rest ~ /^ *(#|%|;|\/\/|--)/ || column == 1 && rest ~ /^c( |$)/) return "a network file has no comments; delete " (column == 1 ? "the line" : "it")
    if (front ~ /\)$/ && rest ~ /^ *\((link|out|end)/) return (front ~ /^\(link/ && rest ~ /^ *\(link/ ? "two links in a line; each link" : "two lines in one; each") " has a line of its own"
    if (front ~ /^\(link [0-9]+ [0-9]+$/ && rest ~ /^ [0-9]/) return "a link has two relays; write a line for each link"
    if (front ~ /^\(link [0-9]+$/ && rest ~ /^[,;-]/) return "one space is due between the two numbers"
    return ""
}

# A cause that is a line where it does not belong, or a line (out R) with two relays, where one is seen.
function line_cause(line) {
    if (text(line - 1) == "(end)" && text(line) ~ /^\(out /) return "a line (out R) stands after (end); put it in front of that"
    if (text(line - 1) == "(end)") return "something stands after the last line"
    if (line <= links + 1) return text(line) ~ /^\((end|out)/ ? miscounted() : ""
    if (text(line) ~ /^\(link /) return miscounted()
    if (byte[place] == 32 && text(line) ~ /^\(out [0-9]+ [0-9]/) return "a line (out R) has one relay; write a line for each"
    return ""
}

# Link lines that are too many or too few, or that stand after lines (out R) or after (end).
function miscounted(    line, count, passed, mixed, words) {
    count = passed = mixed = 0
    for (line = 2; line <= lines; line++) {
        if (text(line) ~ /^\(out/) passed = 1
        if (text(line) !~ /^\(link /) continue
        count++
        if (passed) mixed = 1
    }
    words = "line 1 announces " of(links, "link") ", and the file has " of(count, "link line") "; if these are right, announce " count " in line 1"
    if (mixed) return (count == links ? "" : words "; ") "the lines (out R) go between the last link line and (end)"
    return count == links ? "a link line stands after (end)" : words
}

# The cause where the file ends too early.
function cut_short(line, column) {
    if (text(line) == "(end)") return "the last line end is missing; press Enter after (end) and save"
    if (column > 1) return "the file ends in the middle of a line"
    if (line > links + 1) return "the file ends without its last line, (end)"
    return "the file ends too early: line 1 announces " of(links, "link") ", and it has " of(line - 2, "link line") "; if these are all, announce " line - 2 " in line 1 and end with a line (end)"
}

# 5 to 7: a link's line, its two relays, and for 7 the line that has them already.
function link(    line, pair, where, former) {
    line = place + 2
    where = at(line) ": " text(line)
    split(text(line), pair, /[^0-9]+/)
    if (number == 5) refused(where " names a relay that the network does not have; " range() enough())
    else if (number == 6 && pair[2] == pair[3]) refused(where " joins a relay to itself; delete the line and announce " of(links - 1, "link") " in line 1")
    else if (number == 6) refused(where " has its numbers in falling order; write (link " pair[3] " " pair[2] ")")
    else {
        for (former = 2; former < line && text(former) != text(line);) former++
        refused(where " stands already in line " former "; delete one of the two and announce " of(links - 1, "link") " in line 1")
    }
}

# How many relays would be enough for all links, where so many may be.
function enough(    line, pair, most) {
    most = 0
    for (line = 2; line <= links + 1; line++) {
        if (text(line) !~ /^\(link [0-9]+ [0-9]+\)$/) return ""
        split(text(line), pair, /[^0-9]+/)
        if (pair[2] + 0 > most) most = pair[2] + 0
        if (pair[3] + 0 > most) most = pair[3] + 0
    }
    return most < 1000 ? "; if the links are right, announce " most + 1 " relays in line 1" : ""
}

function range() {
    return relays == 1 ? "it has relay 0 alone" : "it has the relays 0 to " relays - 1
}

# 10: which end is no relay.
function ends(    from, to, who) {
    from = ENVIRON["typed_FROM"]
    to = ENVIRON["typed_TO"]
    who = "neither FROM " from " nor TO " to
    if (from + 0 < relays) who = "TO " to
    else if (to + 0 < relays) who = "FROM " from
    wish(who " is " (who ~ /^n/ ? "" : "not ") "a relay of this network; " range())
}

# 13: what there is instead.
function apart(    two) {
    two = "relays " ENVIRON["typed_FROM"] " and " ENVIRON["typed_TO"]
    if (ENVIRON["greatest"] + 0 > 0) wish("there is no sheet with " of(ENVIRON["typed_K"], "route") " for " two "; the greatest K with a sheet is " ENVIRON["greatest"] ": " ask_instead() " (docs/DESK.md says why there may be more routes all the same)")
    else wish("there is no route at all between " two (outs ? " through relays in service (there " (outs == 1 ? "is 1 line" : "are " outs " lines") " (out R))" : "; they are in different parts of the network"))
}

function ask_instead() { return ENVIRON["me"] " plan " ENVIRON["typed_FROM"] " " ENVIRON["typed_TO"] " " ENVIRON["greatest"] " " ENVIRON["typed_file"] }

# 16: the first line (out R) that is not good.
function out_lines(    line, words) {
    for (line = links + 2; line in relay_out; line++) {
        words = wrong_out(line)
        if (words == "") continue
        refused(at(line) ": " text(line) " " words)
        return
    }
}

# What is wrong with a line (out R), where the lines before it are good.
function wrong_out(line,    relay) {
    relay = relay_out[line]
    if (relay >= relays) return "names a relay that the network does not have; " range() ". Correct the number or delete the line"
    if (line_out[relay] < line) return "stands already in line " line_out[relay] "; delete one of the two"
    if (line > links + 2 && relay < relay_out[line - 1]) return "is not in rising order after " text(line - 1) "; order the lines (out R) by number, the lowest first"
    return ""
}

# 17: which ends are withdrawn.
function ends_withdrawn() {
    end_withdrawn("FROM")
    end_withdrawn("TO")
}

# Says of an end that it is withdrawn, where it is.
function end_withdrawn(name,    relay) {
    relay = ENVIRON["typed_" name]
    if (relay in line_out) refused(at(line_out[relay]) ": " name " " relay " is withdrawn, by (out " relay "); choose another relay; or, when relay " relay " is back in service, delete the line and ask again")
}
