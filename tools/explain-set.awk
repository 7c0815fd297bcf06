# Says what a refusal of a set means whose lines are all reports (4, 5, 20), or for the number 0 what of it is not in its network.
# Input: the set. By the environment: number; file, its name; typed_N; typed_file and me, the file and this command as they are typed.

BEGIN {
    number = ENVIRON["number"] + 0
    relays = ENVIRON["typed_N"] + 0
}
{
    relay = $2 + 0
    if (relay in line_of && !repeats++) repeated = NR
    if (!(relay in line_of)) line_of[relay] = NR
    report[NR] = $0
    if (relay > highest) highest = relay
    for (i = 5; i <= NF; i++) {
        other = $i + 0
        sees[1000 * relay + other]
        if (1000 * other + relay in sees) links++
    }
    seen += NF - 4
    if (NF > 4 && other > highest) highest = other
}
END {
    if (number == 20) twice()
    else if (number == 5) beyond()
    else if (number == 4) refused(": the set makes " links " links, and 3,000 are the most. Pass the set on to the network planners")
    else { one_sided(); unreported() }
}

function say(words) { print "nolkisei: " words }

function refused(words) { say("refused (" number "): " ENVIRON["file"] words) }

function of(count, thing) { return count " " thing (count == 1 ? "" : "s") }

# The words of a report, from entry 1 on: the relay is in entry 2, its neighbours from 5 on. Gives how many there are.
function parts(line, part) { return split(report[line], part, " ") }

# 20: the first line of a relay that has one already, and how to tell which of the two stands.
function twice(    part, former) {
    parts(repeated, part)
    former = line_of[part[2]]
    refused(", line " repeated ": relay " part[2] " has a report in line " former " already" (report[former] == report[repeated] ? ", and this is the same; delete one of the two" : "; " which(former, repeated)) (repeats > 1 ? ". In all, " repeats " lines repeat a relay" : ""))
}

# How to ask which of two lines stands.
function which(former, line) {
    if (ENVIRON["typed_file"] == "-") return "put each into a file of its own, ask which of the two stands (" ENVIRON["me"] " stands FIRST SECOND), and leave the other out"
    return "ask which of the two stands, and delete the other: " ENVIRON["me"] " stands <(sed -n " former "p " ENVIRON["typed_file"] ") <(sed -n " line "p " ENVIRON["typed_file"] ")"
}

# 5: the first number that is not below N, and the N that would do.
function beyond(    line, part, count, i) {
    for (line = 1; line <= NR; line++) {
        count = parts(line, part)
        if (part[2] + 0 >= relays) return too_high(line, "relay " part[2] " reports")
        for (i = 5; i <= count; i++) if (part[i] + 0 >= relays) return too_high(line, "relay " part[2] " sees relay " part[i] + 0)
    }
}

function too_high(line, words) {
    refused(", line " line ": " words ", but N is " relays ", so " (relays == 1 ? "relay 0 is all" : "the relays are 0 to " relays - 1) "; if the set is right, ask for more relays: " ENVIRON["me"] " reports " highest + 1 " " ENVIRON["typed_file"])
}

# The links that only one end sees: how many there are, and the first four.
function one_sided(    relay, part, count, i, other, named, words) {
    if (seen == 2 * links) return
    named = 0
    for (relay = 0; relay < relays && named < 4; relay++) {
        if (!(relay in line_of)) continue
        count = parts(line_of[relay], part)
        for (i = 5; i <= count && named < 4; i++) {
            other = part[i] + 0
            if (1000 * other + relay in sees) continue
            words = (named++ ? words "; " : "") "relay " relay " sees " other ", but " other " does not " (other in line_of ? "see " relay : "report")
        }
    }
    left_out(seen - 2 * links, "link", "seen from one end only and left out of the network", words, named)
}

# The relays without a report: how many there are, and the first four.
function unreported(    relay, named, words) {
    named = 0
    for (relay = 0; relay < relays && named < 4; relay++) {
        if (relay in line_of) continue
        words = (named++ ? words ", " : "") relay
    }
    if (named) left_out(relays - NR, "relay", "without a report and withdrawn", words, named)
}

# How many of a thing are left out and why, and the first of them, so many, by name.
function left_out(count, thing, why, words, named) {
    say(ENVIRON["file"] ": " of(count, thing) (count == 1 ? " is " : " are ") why ": " words (count > named ? (thing == "link" ? "; " : ", ") "and " count - named " more" : ""))
}
