# Says what is wrong first with a sheet that fails, or what its k is (15). Input: the network file and after it the sheet, both of
# their form. By the environment: number, 15 or 0; network and sheet, the names of the two files, network_typed and me, as the network
# file and this command are typed; right, how many links are kept. Where that is not told and it is the count that is wrong, prints the
# sheet's k alone and ends with status 3.

!end && /^\(net / { numbers($0, value); relays = value[1] }
!end && /^\(link / { numbers($0, value); index_of[value[1], value[2]] = links++ }
!end && /^\(out / { numbers($0, value); line_out[value[1]] = NR }
!end && /^\(end/ { end = NR; next }
end { line[NR - end] = $0 }

END {
    numbers(line[1], head)
    routes = (NR - end - 3) / 2
    if (ENVIRON["number"] + 0 == 15) say("refused (15): " at(1) ": k is " head[3] "; 1 to 32 can be asked for")
    else say("fails: " wrong())
}

function say(words) { print "nolkisei: " words }

# The numbers of a line, from entry 1 on; gives how many there are.
function numbers(words, list) {
    sub(/^[^0-9]+/, "", words)
    sub(/[^0-9]+$/, "", words)
    return split(words, list, /[^0-9]+/)
}

# A line of the sheet, and of a route its number.
function at(where) { return ENVIRON["sheet"] ", line " where (where > 1 && where < NR - end - 1 ? ", route " int(where / 2) : "") }

function of(count, thing) { return count " " thing (count == 1 ? "" : "s") }

# Why no route goes through a relay: it is not in the network, or withdrawn. Nothing where one may.
function closed(relay) {
    if (relay >= relays) return "relay " relay " is not in the network; it has " (relays == 1 ? "relay 0 alone" : "the relays 0 to " relays - 1)
    if (relay in line_out) return "relay " relay " is withdrawn: line " line_out[relay] " of " ENVIRON["network"] " has (out " relay ")"
    return ""
}

# What is wrong first: the head, the routes one by one, and last the count of kept links.
function wrong(    route, words) {
    words = wrong_head()
    for (route = 1; words == "" && route <= routes; route++) words = wrong_route(route)
    if (words != "") return words
    if (ENVIRON["right"] == "") { print head[3]; exit 3 }
    numbers(line[2 * routes + 2], kept)
    return at(2 * routes + 2) ": kept is " kept[1] ", and " right()
}

# The right count, or how to get it.
function right() {
    if (ENVIRON["right"] ~ /^[0-9]+$/) return of(ENVIRON["right"], "link") (ENVIRON["right"] == 1 ? " is" : " are") " worth keeping for k " head[3]
    return "that is not how many links are worth keeping for k " head[3] "; " ENVIRON["me"] " keep " head[3] " " ENVIRON["network_typed"] " tells how many"
}

function wrong_head(    i) {
    if (head[1] == head[2]) return at(1) ": from and to are the same relay, " head[1]
    for (i = 1; i <= 2; i++) if (closed(head[i]) != "") return at(1) ": " closed(head[i])
    if (routes != head[3]) return at(1) ": k is " head[3] ", and the sheet has " of(routes, "route")
    return ""
}

function wrong_route(route,    words, steps, circuits) {
    steps = numbers(line[2 * route], relay) - 1
    circuits = numbers(line[2 * route + 1], circuit)
    words = wrong_relays(route, steps)
    if (words != "") return at(2 * route) ": " words
    if (circuits != steps) words = "it has " of(circuits, "circuit") ", and a route of " steps + 1 " relays has " steps
    else words = wrong_circuits(steps)
    if (words != "") return at(2 * route + 1) ": " words
    if (steps == 1 && direct) return at(2 * route) ": it goes over one link alone, circuit " circuit[1] ", and so does route " direct " (line " 2 * direct ")"
    if (steps == 1) direct = route
    return ""
}

# The relays of a route: where it starts and ends, each in the network and in service, none twice or on a route before, each linked to
# the next.
function wrong_relays(route, steps,    i, r) {
    if (relay[1] != head[1]) return "it starts at relay " relay[1] ", not at " head[1]
    for (i = 1; i <= steps + 1; i++) {
        r = relay[i]
        if (closed(r) != "") return closed(r)
        if (on[r] == route) return "relay " r " stands twice in it"
        if (on[r] && r != head[1] && r != head[2]) return "relay " r " stands on route " on[r] " too (line " 2 * on[r] ")"
        if (i > 1 && link(relay[i - 1], r) == "") return "relays " relay[i - 1] " and " r " are not linked"
        on[r] = route
    }
    if (relay[steps + 1] != head[2]) return "it ends at relay " relay[steps + 1] ", not at " head[2]
    return ""
}

# The index of the link between two relays; nothing where there is none.
function link(a, b) {
    if (a + 0 > b + 0) return (b, a) in index_of ? index_of[b, a] : ""
    return (a, b) in index_of ? index_of[a, b] : ""
}

function wrong_circuits(steps,    i, due) {
    for (i = 1; i <= steps; i++) {
        due = link(relay[i], relay[i + 1])
        if (circuit[i] != due) return "from relay " relay[i] " to relay " relay[i + 1] " it has circuit " circuit[i] "; the link between them is circuit " due " (" ENVIRON["network"] ", line " due + 2 ")"
    }
    return ""
}
