# For tests/launcher: the sheet that `sure` prints and its words beside it, why it gives none, and what it says of network files and
# programs that are no good.

# certain WHAT TEXT SHEET WORDS: a network text, and the sheet and all the words that it gets.
certain() {
    printf '%b' "$2" >"$work/a.net"
    ask "$copy/nolkisei" sure a.net
    same "$1: the sheet" "$(printf '%b' "$3")"$'\nstatus 0' "$output"
    same "$1" "nolkisei: a.net: $4" "$words"
}

# uncertain WHAT TEXT LINE WORDS: a network text that gets this line instead of a sheet, and all the words.
uncertain() {
    printf '%b' "$2" >"$work/a.net"
    ask "$copy/nolkisei" sure a.net
    same "$1: no sheet" "(none $3)"$'\nstatus 1' "$output"
    same "$1" "nolkisei: a.net: $4" "$words"
}

# sized WHAT TEXT LAST BEFORE FIGURE: a network text whose last two relays have so many routes, each on a line of the sheet.
sized() {
    printf '%b' "$2" >"$work/a.net"
    ask "$copy/nolkisei" sure a.net
    same "$1: the sheet" "(sheet (from $3) (to $4) (k $5))" "${output%%$'\n'*}"
    same "$1: its routes" "$5" "$(grep -c "^(route $3 .*$4)\$" <<<"$output")"
    says "$1" 0 "nolkisei: a.net: relays $3 and $4, the last two of the order, have exactly $5 routes, and no planner finds more: relay $3 has $5 links to relays in service"
}

# full RELAYS: every pair of so many relays.
full() {
    awk -v relays="$1" 'BEGIN {
        print "(net (relays " relays ") (links " relays * (relays - 1) / 2 "))"
        for (b = 1; b < relays; b++) for (a = 0; a < b; a++) print "(link " a " " b ")"
        print "(end)"
    }'
}

certain 'the mesh' "$mesh" '(sheet (from 4) (to 3) (k 2))\n(route 4 2 3)\n(over 5 4)\n(route 4 3)\n(over 6)\n(kept 7)\n(end)' \
    'relays 4 and 3, the last two of the order, have exactly 2 routes, and no planner finds more: relay 4 has 2 links to relays in service'
certain 'the mesh without relay 2' "$(without "$mesh" 2)" '(sheet (from 4) (to 3) (k 1))\n(route 4 3)\n(over 6)\n(kept 3)\n(end)' \
    'relays 4 and 3, the last two of the order, have exactly 1 route, and no planner finds more: relay 4 has 1 link to relays in service'
certain 'an order that starts at relay 1' "$busy" '(sheet (from 3) (to 2) (k 1))\n(route 3 1 2)\n(over 3 2)\n(kept 3)\n(end)' \
    'relays 3 and 2, the last two of the order, have exactly 1 route, and no planner finds more: relay 3 has 1 link to relays in service'
sized 'the square' "$square" 3 2 2
sized 'the full four' "$four" 3 2 3
sized 'the most routes of a sheet' "$(crowded)\n" 999 998 32
sized 'all pairs of 33 relays' "$(full 33)\n" 32 31 32
uncertain 'all pairs of 34 relays' "$(full 34)\n" '(from 33) (to 32) (links 33)' \
    'relays 33 and 32, the last two of the order, have at most 33 routes, since relay 33 has 33 links to relays in service; a sheet has at most 32'
uncertain 'a last relay without a link' "$parts" '(from 2) (to 1) (links 0)' 'relays 2 and 1, the last two of the order, have no route: relay 2 has 0 links to relays in service'
uncertain 'a link to a withdrawn relay alone' "$(without "$busy" 1)" '(from 3) (to 2) (links 0)' \
    'relays 3 and 2, the last two of the order, have no route: relay 3 has 0 links to relays in service'
uncertain 'the longest text' "$(longest)\n" '(from 922) (to 921) (links 0)' 'relays 922 and 921, the last two of the order, have no route: relay 922 has 0 links to relays in service'
for withdrawn in '0 1 2 3' '0 1 2 3 4'; do
    case $withdrawn in *4) serving=0 ;; *) serving=1 ;; esac
    # shellcheck disable=SC2086
    uncertain "the mesh without $withdrawn" "$(without "$mesh" $withdrawn)" "(serving $serving)" 'fewer than two relays are in service, so there are no two to count routes between'
done
uncertain 'one relay' '(net (relays 1) (links 0))\n(end)\n' '(serving 1)' 'fewer than two relays are in service, so there are no two to count routes between'

# Network files that are refused, as by `plan`; what is no network file; programs that do not do their part.
printf '(net (relays 4) (links 2))\n(link 0 1)\n(link 2 2)\n(end)\n' >"$work/a.net"
ask "$copy/nolkisei" sure a.net
same 'sure, a link from a relay to itself' $'(refused 6 1)\nstatus 1' "$output"
says 'sure, a link from a relay to itself' 1 'nolkisei: refused (6): a.net, line 3'
printf '(net (relays 4) (links 1))\n(link 0 1)\n' >"$work/a.net"
ask "$copy/nolkisei" sure a.net
same 'sure, no end' $'(refused 2 38)\nstatus 1' "$output"
says 'sure, no end' 1 'nolkisei: refused (2): a.net'
ask "$copy/nolkisei" sure "$copy/networks/mesh.col"
same 'sure, a drawing' $'(refused 2 0)\nstatus 1' "$output"
ask "$copy/nolkisei" sure none.net
says 'sure, a missing file' 2 'nolkisei: there is no file none.net'
ask bash -c "cat '$mesh_file' | '$copy/nolkisei' sure -"
same 'sure, a pipe' '(sheet (from 4) (to 3) (k 2))' "${output%%$'\n'*}"
says 'sure, a pipe' 0 'nolkisei: standard input: relays 4 and 3, the last two of the order, have exactly 2 routes'
for arguments in '' 'a.net b.net'; do
    # shellcheck disable=SC2086
    ask "$copy/nolkisei" sure $arguments
    says "sure, the arguments '$arguments'" 2 'usage: nolkisei sure FILE'
done
for does in 'echo "(sheet (from 4) (to 3) (k 2))"' 'echo "(none (from 4) (to 3)"' 'echo "(sheet (from x) (to 3) (k 2))"; echo "(end)"'; do
    instead surer "$does" 'what the surer wrote is not whole' "$copy/nolkisei" sure "$mesh_file"
done
restore surer
