# The lines of a file for the scripts that explain a refusal: its bytes, the usual causes of a departure, and showing a line.
# Input: the file's bytes as decimal numbers. By the environment: command; number and place of the refusal; file, its name; typed_file
# and me, the file and this command as they are typed; lines_before, how many lines stand in front of these bytes, where some do.

BEGIN {
    size = 0
    number = ENVIRON["number"] + 0
    place = ENVIRON["place"] + 0
    lines_before = ENVIRON["lines_before"] + 0
}
{ for (i = 1; i <= NF; i++) byte[size++] = $i + 0 }

function say(words) { print "nolkisei: " words }

function refused(words) { say("refused (" number "): " words) }

# Where each line starts. The last one has no line end, and may be empty.
function find_lines(    i) {
    lines = 1
    start[1] = 0
    for (i = 0; i < size; i++) if (byte[i] == 10) start[++lines] = i + 1
}

function ending(line) { return line < lines ? start[line + 1] - 1 : size }

# The line that the place is in.
function line_there(    line) {
    for (line = lines; start[line] > place;) line--
    return line
}

# How many there are of a thing.
function of(count, thing) { return (count == "" ? "another number of" : count) " " thing (count == 1 ? "" : "s") }

function visible(code) { return code >= 32 && code < 127 ? sprintf("%c", code) : "?" }

# Bytes as text for a terminal.
function printable(from, to,    i, all) {
    all = ""
    for (i = from; i < to; i++) all = all visible(byte[i])
    return all
}

# A line's text, or its first 60 bytes.
function text(line,    last) {
    last = ending(line)
    return printable(start[line], last > start[line] + 60 ? start[line] + 60 : last)
}

# A line of the file with a mark under a column: its first 60 bytes, or 60 about the column where that is further along.
function show(line, column,    first, last, front, pad) {
    first = start[line] + (column > 55 ? column - 41 : 0)
    last = ending(line) > first + 60 ? first + 60 : ending(line)
    front = first > start[line] ? "..." : ""
    print "    " front printable(first, last) (ending(line) > last ? "..." : "")
    pad = ""
    while (length(pad) < length(front) + start[line] + column - 1 - first) pad = pad " "
    print "    " pad "^"
}

# A line of the file, by its name.
function at(line) { return ENVIRON["file"] ", line " line + lines_before }

# What is wrong at a column of a line, and the line.
function wrong(line, column, words) {
    refused(at(line) ", column " column ": " words)
    show(line, column)
}

# Where and why a file departs from its form; the script that is run with this one has the cause and what is due.
function departs(    line, column) {
    line = line_there()
    column = place - start[line] + 1
    wrong(line, column, cause(line, column))
    say(at(line) ": due there: " due(line))
}

function blank(code) { return code == 32 || code == 9 || code == 13 }

function digit(code) { return code >= 48 && code <= 57 }

# Whether all bytes from here to a line's end are blank.
function blank_from(i, line) {
    while (i < ending(line) && blank(byte[i])) i++
    return i >= ending(line)
}

# The word that a line begins with after its bracket.
function word(line) {
    if (line < 1 || !match(text(line), /^\([a-z]+/)) return ""
    return substr(text(line), 2, RLENGTH - 1)
}

# Whether the first line that is no comment and not blank is one of a drawing in the DIMACS form.
function drawn(    line) {
    for (line = 1; line < lines && (byte[start[line]] == 99 || blank_from(start[line], line));) line++
    return text(line) ~ /^(p [a-z]+|e [0-9]+) +[0-9]/
}

# What kind of file this is, where it is seen.
function kind_seen() {
    if (word(1) == "net") return "a network file"
    if (word(1) == "sheet") return "a sheet"
    if (word(1) == "lease") return "a list of links"
    if (word(1) == "refused") return "a refusal"
    if (word(1) == "report") return "a set of reports"
    return drawn() ? "a drawing" : ""
}

# A cause that is another kind of file than this one, where one is seen.
function other_kind(kind,    seen) {
    seen = kind_seen()
    if (seen == "" || seen == kind) return ""
    if (seen == "a drawing" && kind == "a network file") return "this looks like a drawing in the DIMACS form; make a network file of it first: " ENVIRON["me"] " import " ENVIRON["typed_file"] " > NEW.net"
    if (seen == "a set of reports" && kind == "a network file") return "this looks like a set of link reports; make a network file of it first, with the number of relays for N: " ENVIRON["me"] " reports N " ENVIRON["typed_file"] " > NEW.net"
    if (seen == "a network file" && kind == "a drawing") return "this is a network file already; it needs no import"
    if (ENVIRON["command"] == "verify" && seen ~ /^a (network file|sheet)$/) return "this is " seen "; the network file is named first, the sheet second"
    return "this is " seen ", not " kind
}

# A cause that is the whole file's, where one is seen.
function file_cause(line) {
    if (size == 0) return "the file is empty"
    if (line == 1 && (byte[0] == 31 && (byte[1] == 139 || byte[1] == 157) || text(1) ~ /^(BZh[0-9]|PK|.7zXZ)/ || byte[0] == 40 && byte[1] == 181)) return "the file is compressed; unpack it first (gunzip, bunzip2, unxz, unzstd or unzip)"
    if (line == 1 && byte[0] == 239 && byte[1] == 187 && byte[2] == 191) return "the file begins with a byte-order mark; save it without one"
    if (line == 1 && (byte[0] == 255 && byte[1] == 254 || byte[0] == 254 && byte[1] == 255)) return "the file is in UTF-16; save it as plain text (ASCII or UTF-8)"
    return ""
}

# A cause that is a blank, where one is seen.
function blank_cause(line, column,    code) {
    code = byte[place]
    if (code == 13) return "a carriage return; save the file with the line ends of Unix (LF), not of Windows (CR LF)"
    if (blank_from(start[line], line)) return "a blank line"
    if (blank(code) && blank_from(place, line)) return "spaces at the end of the line"
    if (column == 1 && blank(code)) return "spaces at the start of the line"
    if (code == 9) return "a tab; one space is due between words and numbers"
    if (code == 32 && column > 1 && byte[place - 1] == 32) return "two spaces; one is due between words and numbers"
    return ""
}

# The cause that is the byte there in a file of a kind.
function byte_cause(column, kind,    code, before) {
    code = byte[place]
    before = column > 1 ? byte[place - 1] : 0
    if (digit(code) && before == 48 && !digit(byte[place - 2])) return "a number has a zero in front"
    if (digit(code) && digit(before)) return "a number has more than four digits"
    if (code == 10) return "the line ends too early"
    if (code >= 65 && code <= 90) return "a capital letter; the words have small letters"
    if (code >= 128) return "a character that no line of " kind " has"
    return "this is not the form that is due"
}
