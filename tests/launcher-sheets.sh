# For tests/launcher: what `verify` says of a sheet that fails, of each refusal, and of files and programs that are no good.
cp "$mesh_file" "$work/m.net"
net=m.net
front='(sheet (from 4) (to 1) (k 2))\n'
via2='(route 4 2 1)\n(over 5 2)\n'
via3='(route 4 3 1)\n(over 6 3)\n'
back='(kept 7)\n(end)\n'

# reads WHAT SHEET LINE STATUS WORDS: the network $net with this sheet gets this line and status, and just these words beside it.
reads() {
    printf '%b' "$2" >"$work/a.sheet"
    ask "$copy/nolkisei" verify "$net" a.sheet
    same "$1: the line" "$3"$'\n'"status $4" "$output"
    same "$1" "$5" "$words"
}

# wrong_one WHAT SHEET WHERE WORDS: a sheet that fails, and what is said of it there.
wrong_one() {
    reads "$1" "$2" '(fails)' 1 "nolkisei: fails: a.sheet, line $3: $4"
}

reads 'a sheet that holds' "$front$via2$via3$back" '(holds)' 0 ''
reads 'a byte 0 behind the end' "$front$via2$via3$back\0" '(refused 14 95)' 1 $'nolkisei: refused (14): a.sheet, line 8, column 1: something stands after the last line\n    ?\n    ^\nnolkisei: a.sheet, line 8: due there: nothing, since (end) is the last line'
reads 'routes in another order' "$front$via3$via2$back" '(holds)' 0 ''
wrong_one 'equal ends' "(sheet (from 1) (to 1) (k 1))\n(route 1 0 1)\n(over 0 0)\n(kept 4)\n(end)\n" 1 'from and to are the same relay, 1'
wrong_one 'an end that is no relay' "(sheet (from 4) (to 9) (k 1))\n(route 4 9)\n(over 0)\n(kept 4)\n(end)\n" 1 'relay 9 is not in the network; it has the relays 0 to 4'
wrong_one 'a route too few' "$front$via3$back" 1 'k is 2, and the sheet has 1 route'
wrong_one 'a route too many' "$front$via3$via2$via3$back" 1 'k is 2, and the sheet has 3 routes'
wrong_one 'no route' "$front$back" 1 'k is 2, and the sheet has 0 routes'
wrong_one 'a route that starts elsewhere' "$front$via2(route 3 1)\n(over 3)\n$back" '4, route 2' 'it starts at relay 3, not at 4'
wrong_one 'a route that ends elsewhere' "$front(route 4 3)\n(over 6)\n$via2$back" '2, route 1' 'it ends at relay 3, not at 1'
wrong_one 'a relay that is not there' "$front(route 4 5 1)\n(over 6 3)\n$via2$back" '2, route 1' 'relay 5 is not in the network; it has the relays 0 to 4'
wrong_one 'a relay twice' "$front(route 4 3 1 0 1)\n(over 6 3 0 0)\n$via2$back" '2, route 1' 'relay 1 stands twice in it'
wrong_one 'a relay on two routes' "$front(route 4 2 0 1)\n(over 5 1 0)\n(route 4 3 2 1)\n(over 6 4 2)\n$back" '4, route 2' 'relay 2 stands on route 1 too (line 2)'
wrong_one 'no link' "$front$via3(route 4 0 1)\n(over 5 0)\n$back" '4, route 2' 'relays 4 and 0 are not linked'
wrong_one 'a circuit of another link' "$front$via3(route 4 2 1)\n(over 5 3)\n$back" '5, route 2' 'from relay 2 to relay 1 it has circuit 3; the link between them is circuit 2 (m.net, line 4)'
wrong_one 'a circuit of no link' "$front(route 4 3 1)\n(over 7 3)\n$via2$back" '3, route 1' 'from relay 4 to relay 3 it has circuit 7; the link between them is circuit 6 (m.net, line 8)'
wrong_one 'a circuit too few' "$front(route 4 3 1)\n(over 3)\n$via2$back" '3, route 1' 'it has 1 circuit, and a route of 3 relays has 2'
wrong_one 'a circuit too many' "$front(route 4 3 1)\n(over 6 3 3)\n$via2$back" '3, route 1' 'it has 3 circuits, and a route of 3 relays has 2'
wrong_one 'one link twice' "(sheet (from 0) (to 1) (k 2))\n(route 0 1)\n(over 0)\n(route 0 1)\n(over 0)\n$back" '4, route 2' 'it goes over one link alone, circuit 0, and so does route 1 (line 2)'
wrong_one 'the count of kept links' "$front$via3$via2(kept 6)\n(end)\n" 6 'kept is 6, and 7 links are worth keeping for k 2'
reads 'k 0' "(sheet (from 4) (to 1) (k 0))\n$back" '(refused 15 0)' 1 'nolkisei: refused (15): a.sheet, line 1: k is 0; 1 to 32 can be asked for'
reads 'k 33' "(sheet (from 4) (to 4) (k 33))\n$via3$back" '(refused 15 0)' 1 'nolkisei: refused (15): a.sheet, line 1: k is 33; 1 to 32 can be asked for'

# The mesh without relay 2, and without 0 and 3: a sheet that goes through a withdrawn relay fails, and that is said before its count.
single='(sheet (from 4) (to 1) (k 1))\n'
net=without.net
cp "$copy/networks/mesh-without-2.net" "$work/$net"
reads 'a sheet past the withdrawn relay' "$single$via3(kept 3)\n(end)\n" '(holds)' 0 ''
wrong_one 'a withdrawn relay on a route' "$single$via2(kept 3)\n(end)\n" '2, route 1' 'relay 2 is withdrawn: line 9 of without.net has (out 2)'
wrong_one 'a withdrawn relay on the second route' "$front$via3$via2$back" '4, route 2' 'relay 2 is withdrawn: line 9 of without.net has (out 2)'
wrong_one 'a withdrawn relay further along' "(sheet (from 4) (to 0) (k 1))\n(route 4 3 1 2 0)\n(over 6 3 2 1)\n(kept 3)\n(end)\n" '2, route 1' 'relay 2 is withdrawn: line 9 of without.net has (out 2)'
wrong_one 'a from that is withdrawn' "(sheet (from 2) (to 4) (k 1))\n(route 2 4)\n(over 5)\n(kept 3)\n(end)\n" 1 'relay 2 is withdrawn: line 9 of without.net has (out 2)'
wrong_one 'a to that is withdrawn' "(sheet (from 4) (to 2) (k 1))\n(route 4 2)\n(over 5)\n(kept 3)\n(end)\n" 1 'relay 2 is withdrawn: line 9 of without.net has (out 2)'
wrong_one 'a circuit of a withdrawn relay' "$single(route 4 3 1)\n(over 5 3)\n(kept 3)\n(end)\n" '3, route 1' 'from relay 4 to relay 3 it has circuit 5; the link between them is circuit 6 (without.net, line 8)'
wrong_one 'the count of the time before' "$single$via3(kept 4)\n(end)\n" 4 'kept is 4, and 3 links are worth keeping for k 1'
printf '%b' "${mesh%'(end)\n'}(out 0)\n(out 3)\n(end)\n" >"$work/$net"
wrong_one 'the second of two withdrawn relays' "$single$via3(kept 2)\n(end)\n" '2, route 1' 'relay 3 is withdrawn: line 10 of without.net has (out 3)'
wrong_one 'the first of them for an end' "(sheet (from 4) (to 0) (k 1))\n(route 4 2 0)\n(over 5 1)\n(kept 2)\n(end)\n" 1 'relay 0 is withdrawn: line 9 of without.net has (out 0)'
reads 'a sheet past both' "$single$via2(kept 2)\n(end)\n" '(holds)' 0 ''
reads 'a form that departs, behind out lines' "${single}x" '(refused 14 30)' 1 $'nolkisei: refused (14): a.sheet, line 2, column 1: this is not the form that is due\n    x\n    ^\nnolkisei: a.sheet, line 2: due there: a line (route A B ..) or the line (kept N)'
net=m.net

# strays WHAT SHEET PLACE LINE COLUMN CAUSE SHOWN DUE [MARK]: a sheet refused with 14, and the column of the mark where it is another.
strays() {
    local pad
    pad=$(printf '%*s' "${9:-$5}" '^')
    reads "$1" "$2" "(refused 14 $3)" 1 "nolkisei: refused (14): a.sheet, line $4, column $5: $6"$'\n    '"$7"$'\n    '"$pad"$'\nnolkisei: a.sheet, line '"$4: due there: $8"
}

head_due='a line (sheet (from A) (to B) (k K))'
over_due='a line (over C ..), with the circuits of the route above'
either_due='a line (route A B ..) or the line (kept N)'
strays 'an empty sheet' '' 0 1 1 'the file is empty' '' "$head_due"
strays 'a byte-order mark' "\xef\xbb\xbf$front" 0 1 1 'the file begins with a byte-order mark; save it without one' '???(sheet (from 4) (to 1) (k 2))' "$head_due"
strays 'a refusal for a sheet' '(refused 13 0)\n' 1 1 2 'this is a refusal, not a sheet' '(refused 13 0)' "$head_due"
strays 'a list for a sheet' '(lease (k 1))\n' 1 1 2 'this is a list of links, not a sheet' '(lease (k 1))' "$head_due"
strays 'a network for a sheet' "$mesh" 1 1 2 'this is a network file; the network file is named first, the sheet second' '(net (relays 5) (links 7))' "$head_due"
strays 'quoted mail' "> $front" 0 1 1 'a mark of quoted mail; take it off every line' '> (sheet (from 4) (to 1) (k 2))' "$head_due"
strays 'carriage returns' "(sheet (from 4) (to 1) (k 2))\r\n" 29 1 30 'a carriage return; save the file with the line ends of Unix (LF), not of Windows (CR LF)' '(sheet (from 4) (to 1) (k 2))?' "$head_due"
strays 'a zero in front' '(sheet (from 04) (to 1) (k 2))\n' 14 1 15 'a number has a zero in front' '(sheet (from 04) (to 1) (k 2))' "$head_due"
strays 'no circuits' "$front(route 4 3 1)\n(route 4 2 1)\n$back" 45 3 2 'the route above has no circuits: this sheet is from a planner that did not print them yet; ask for a new one' '(route 4 2 1)' "$over_due"
strays 'no circuits on the last route' "$front$via3(route 4 2 1)\n$back" 70 5 2 'the route above has no circuits: this sheet is from a planner that did not print them yet; ask for a new one' '(kept 7)' "$over_due"
strays 'one relay' "$front(route 4)\n(over 6)\n$back" 38 2 9 'a route has at least two relays' '(route 4)' 'a line (route A B ..)'
strays 'no index' "$front(route 4 3)\n(over)\n$back" 47 3 6 'a route has at least one circuit' '(over)' "$over_due"
strays 'circuits without a route' "$front(over 6 3)\n$back" 31 2 2 'this is not the form that is due' '(over 6 3)' "$either_due"
strays 'five digits' "$front(route 4 31000)\n" 43 2 14 'a number has more than four digits' '(route 4 31000)' 'a line (route A B ..)'
strays 'a broken line' "$front(route 4 3\n1)\n(over 6 3)\n" 40 2 11 'the line ends too early (mail programs break long lines)' '(route 4 3' 'a line (route A B ..)'
strays 'a capital letter' "$front(Kept 7)\n(end)\n" 31 2 2 'a capital letter; the words have small letters' '(Kept 7)' "$either_due"
strays 'another character' "$front$via3$via2(kept \xc2\xbd)\n" 86 6 7 'a character that no line of a sheet has' '(kept ??)' 'the line (kept N)'
strays 'two spaces' "$front(route 4  3)\n" 39 2 10 'two spaces; one is due between words and numbers' '(route 4  3)' 'a line (route A B ..)'
strays 'a blank line' "$front\n$via3" 30 2 1 'a blank line' '' "$either_due"
strays 'the end for a route' "$front(end)\n" 31 2 2 'this is not the form that is due' '(end)' "$either_due"
strays 'no kept line' "$front$via3$via2(end)\n" 81 6 2 'this is not the form that is due' '(end)' "$either_due"
strays 'a line cut off' "$front(route 4 3" 40 2 11 'the file ends in the middle of a line' '(route 4 3' 'a line (route A B ..)'
strays 'lines that are missing' "$front$via3" 55 4 1 'the file ends too early; a sheet that is whole ends with (end)' '' "$either_due"
strays 'no last line' "$front$via3$via2(kept 7)\n" 89 7 1 'the file ends without its last line, (end)' '' 'the line (end)'
strays 'no last line end' "$front$via3$via2(kept 7)\n(end)" 94 7 6 'the last line end is missing; press Enter after (end) and save' '(end)' 'the line (end)'
strays 'more behind the end' "$front$via3$via2${back}Regards\n" 95 8 1 'something stands after the last line' 'Regards' 'nothing, since (end) is the last line'
strays 'far along a line' "$front(route 4$(printf ' 3%.0s' {1..50}) x$(printf ' 2%.0s' {1..50}))\n" 139 2 110 'this is not the form that is due' "...$(printf '3 %.0s' {1..20})x$(printf ' 2%.0s' {1..9}) ..." 'a line (route A B ..)' 44

# The network file: its refusals, and what stands behind its end.
# network WHAT TEXT LINE WORDS: this network with a sheet that holds for the mesh gets this line, and words with these among them.
network() {
    printf '%b' "$2" >"$work/a.net"
    printf '%b' "$front$via3$via2$back" >"$work/a.sheet"
    ask "$copy/nolkisei" verify a.net a.sheet
    same "$1: the line" "$3"$'\nstatus 1' "$output"
    says "$1" 1 "$4"
}

network 'a network without its end' "$head$body" '(refused 2 49)' 'nolkisei: refused (2): a.net, line 4, column 1: the file ends without its last line, (end)'
network 'an end without its line end' "$head$body(end)" '(refused 2 54)' 'nolkisei: refused (2): a.net, line 4, column 6: the last line end is missing; press Enter after (end) and save'
network 'links that are missing in a network' "$head(link 0 1)\n" '(refused 2 38)' 'nolkisei: refused (2): a.net, line 3, column 1: the file ends too early: line 1 announces 2 links, and it has 1 link line'
network 'an empty network' '' '(refused 2 0)' 'nolkisei: refused (2): a.net, line 1, column 1: the file is empty'
network 'a sheet for a network' "$front$back" '(refused 2 1)' 'nolkisei: refused (2): a.net, line 1, column 2: this is a sheet; the network file is named first, the sheet second'
network 'a network of no relay' '(net (relays 0) (links 0))\n(end)\n' '(refused 3 0)' 'nolkisei: refused (3): a.net, line 1, announces 0 relays; 1 to 1,000 are allowed'
network 'a network with a link twice' "$head(link 0 1)\n(link 0 1)\n(end)\n" '(refused 7 1)' 'nolkisei: refused (7): a.net, line 3: (link 0 1) stands already in line 2'
network 'a blank line after the network' "$mesh\n" '(refused 2 110)' $'nolkisei: refused (2): a.net, line 10, column 1: a blank line\n    \n    ^\nnolkisei: a.net, line 10: due there: nothing, since (end) is the last line'
network 'words after the network' "${mesh}Regards\n" '(refused 2 110)' $'nolkisei: refused (2): a.net, line 10, column 1: something stands after the last line\n    Regards'
network 'an out line after the network' "$mesh(out 2)\n" '(refused 2 110)' $'nolkisei: refused (2): a.net, line 10, column 1: a line (out R) stands after (end); put it in front of that\n    (out 2)'
network 'words after a network with an out line' "${mesh%'(end)\n'}(out 2)\n(end)\nRegards\n" '(refused 2 118)' $'nolkisei: refused (2): a.net, line 11, column 1: something stands after the last line\n    Regards'
network 'a network with an out line and without its end' "$head$body(out 2)\n" '(refused 2 57)' $'nolkisei: refused (2): a.net, line 5, column 1: the file ends without its last line, (end)\n    \n    ^\nnolkisei: a.net, line 5: due there: a line (out R) or the line (end)'
network 'a network that breaks off in an out line' "$head$body(out 2" '(refused 2 55)' $'nolkisei: refused (2): a.net, line 4, column 7: the file ends in the middle of a line\n    (out 2\n          ^\nnolkisei: a.net, line 4: due there: a line (out R)'
network 'a network with an out line of no relay' "$head$body(out 5)\n(end)\n" '(refused 16 0)' 'nolkisei: refused (16): a.net, line 4: (out 5) names a relay that the network does not have; it has the relays 0 to 4'
network 'a relay withdrawn beside the routes' "${mesh%'(end)\n'}(out 0)\n(end)\n" '(fails)' 'nolkisei: fails: a.sheet, line 6: kept is 7, and 5 links are worth keeping for k 2'
network 'the sheet after the network, in its file' "$mesh$front$via3$via2$back" '(refused 2 110)' $'nolkisei: refused (2): a.net, line 10, column 1: something stands after the last line\n    (sheet'
network 'a network of one relay' '(net (relays 1) (links 0))\n(end)\n' '(fails)' 'nolkisei: fails: a.sheet, line 1: relay 4 is not in the network; it has relay 0 alone'
printf '%b' "${mesh%'(end)\n'}" >"$work/a.net"
printf '%b' "(end)\n$front$via3$via2$back" >"$work/b.sheet"
ask "$copy/nolkisei" verify a.net b.sheet
same "the network's last line in front of the sheet" $'(refused 2 104)\nstatus 1' "$output"
: >"$work/b.sheet"
printf '%b' "$mesh$front$via3$via2$back" >"$work/a.net"
ask "$copy/nolkisei" verify a.net b.sheet
same 'both in one file, and an empty sheet' $'(refused 2 110)\nstatus 1' "$output"
printf '%b' "$front$via3$via2$back" >"$work/-s"
ask "$copy/nolkisei" verify m.net -s
same 'a sheet whose name begins with -' $'(holds)\nstatus 0' "$output$words"
ask bash -c "'$copy/nolkisei' verify m.net /dev/stdin <-s"
same 'a sheet through standard input' $'(holds)\nstatus 0' "$output$words"
ask bash -c "'$copy/nolkisei' verify <(cat m.net) -s"
same 'a network through a pipe' $'(holds)\nstatus 0' "$output$words"
ask bash -c "'$copy/nolkisei' verify - -s <m.net"
same 'a network through standard input' $'(holds)\nstatus 0' "$output$words"
ask bash -c "printf '$front$back' | '$copy/nolkisei' verify m.net -"
same 'what is wrong with a sheet through a pipe' $'(fails)\nstatus 1nolkisei: fails: standard input, line 1: k is 2, and the sheet has 0 routes' "$output$words"
truncate -s 100000000 "$work/b.sheet"
ask "$copy/nolkisei" verify b.sheet -s
same 'a network of 100,000,000 bytes' $'status 2nolkisei: b.sheet and -s have more than 1,000,000 bytes together, and at most so many are read' "$output$words"

# Files and programs that are no good.
for arguments in '' m.net 'm.net a.sheet 2'; do
    # shellcheck disable=SC2086
    ask "$copy/nolkisei" verify $arguments
    says "verify, the arguments '$arguments'" 2 'usage: nolkisei verify NETWORK SHEET'
done
ask "$copy/nolkisei" verify none.net a.sheet
says 'verify, a missing network' 2 'nolkisei: there is no file none.net'
ask "$copy/nolkisei" verify m.net none.sheet
says 'verify, a missing sheet' 2 'nolkisei: there is no file none.sheet'
ask "$copy/nolkisei" verify . a.sheet
says 'verify, a directory for a network' 2 'nolkisei: . is a folder, not a network file'
ask "$copy/nolkisei" verify m.net .
says 'verify, a directory for a sheet' 2 'nolkisei: . is a folder, not a sheet'
ask "$copy/nolkisei" verify m.net /proc/self/mem
says 'verify, a sheet that breaks off' 2 'nolkisei: /proc/self/mem cannot be read to its end'
ask "$copy/nolkisei" verify m.net /dev/zero
same 'verify, a sheet that never ends: nothing is passed on' 'status 2' "$output"
says 'verify, a sheet that never ends' 2 'nolkisei: m.net and /dev/zero have more than 1,000,000 bytes together, and at most so many are read'
ask bash -c "'$copy/nolkisei' verify m.net -s >/dev/full"
says 'verify, nowhere to write' 2 'could not be written to standard output'
for part in 'exit 3: could not be run to its end' 'printf "(holds)": not whole' 'echo "(holds)"; echo more: not whole' 'echo "(refused 14": not whole' ': : gave no answer'; do
    instead verifier "${part%: *}" "${part##*: }" "$copy/nolkisei" verify m.net -s
done
restore verifier
rm "$work/-s" "$work/b.sheet"
