# For tests/launcher: what `plan` and `keep` say of each refusal, and of arguments that are no numbers; and that they pass on what is
# printed for a network with a withdrawn relay.
head='(net (relays 5) (links 2))\n'
body='(link 0 1)\n(link 0 2)\n'

# departs WHAT TEXT PLACE LINE COLUMN CAUSE SHOWN DUE: a text refused with 2, and just these words: the line that is shown, and what is
# due there.
departs() {
    local pad
    pad=$(printf '%*s' "$5" '^')
    printf '%b' "$2" >"$work/a.net"
    ask "$copy/nolkisei" plan 4 1 2 a.net
    same "$1: the refused line" "(refused 2 $3)"$'\nstatus 1' "$output"
    same "$1" "nolkisei: refused (2): a.net, line $4, column $5: $6"$'\n    '"$7"$'\n    '"$pad"$'\nnolkisei: a.net, line '"$4: due there: $8" "$words"
}

link_due='a line (link A B)'
out_due='a line (out R)'
last_due='a line (out R) or the line (end)'
last_place='the lines (out R) go between the last link line and (end)'
departs 'carriage returns' "$head(link 0 1)\r\n(link 0 2)\r\n(end)\r\n" 37 2 11 'a carriage return; save the file with the line ends of Unix (LF), not of Windows (CR LF)' '(link 0 1)?' "$link_due"
departs 'a byte-order mark' "\xef\xbb\xbf$head$body(end)\n" 0 1 1 'the file begins with a byte-order mark; save it without one' '???(net (relays 5) (links 2))' 'a line (net (relays N) (links M))'
departs 'UTF-16' '\xff\xfe(\0n\0' 0 1 1 'the file is in UTF-16; save it as plain text (ASCII or UTF-8)' '??(?n?' 'a line (net (relays N) (links M))'
departs 'no last line end' "$head$body(end)" 54 4 6 'the last line end is missing; press Enter after (end) and save' '(end)' 'the line (end)'
departs 'a blank line' "$head(link 0 1)\n\n(link 0 2)\n(end)\n" 38 3 1 'a blank line' '' "$link_due"
departs 'a blank line behind the end' "$head$body(end)\n\n" 55 5 1 'a blank line' '' 'nothing, since (end) is the last line'
departs 'spaces at the end' "$head(link 0 1)  \n(link 0 2)\n(end)\n" 37 2 11 'spaces at the end of the line' '(link 0 1)  ' "$link_due"
departs 'spaces at the start' "$head (link 0 1)\n(link 0 2)\n(end)\n" 27 2 1 'spaces at the start of the line' ' (link 0 1)' "$link_due"
departs 'two spaces' "$head(link 0  1)\n(link 0 2)\n(end)\n" 35 2 9 'two spaces; one is due between words and numbers' '(link 0  1)' "$link_due"
departs 'a tab' "$head(link 0\t1)\n(link 0 2)\n(end)\n" 34 2 8 'a tab; one space is due between words and numbers' '(link 0?1)' "$link_due"
departs 'more links than announced' "$head$body(link 0 3)\n(end)\n" 50 4 2 'line 1 announces 2 links, and the file has 3 link lines; if these are right, announce 3 in line 1' '(link 0 3)' "$last_due"
departs 'fewer links than announced' "$head(link 0 1)\n(end)\n" 39 3 2 'line 1 announces 2 links, and the file has 1 link line; if these are right, announce 1 in line 1' '(end)' "$link_due"
departs 'links that are missing' "$head(link 0 1)\n" 38 3 1 'the file ends too early: line 1 announces 2 links, and it has 1 link line; if these are all, announce 1 in line 1 and end with a line (end)' '' "$link_due"
departs 'no last line' "$head$body" 49 4 1 'the file ends without its last line, (end)' '' "$last_due"
departs 'a line cut off' "$head(link 0" 34 2 8 'the file ends in the middle of a line' '(link 0' "$link_due"
departs 'an empty file' '' 0 1 1 'the file is empty' '' 'a line (net (relays N) (links M))'
departs 'a last line that is not the last' "$head$body(end)\nmore\n" 55 5 1 'something stands after the last line' 'more' 'nothing, since (end) is the last line'
departs 'a zero in front' "$head(link 01 2)\n" 34 2 8 'a number has a zero in front' '(link 01 2)' "$link_due"
departs 'five digits' "$head(link 10000 2)\n" 37 2 11 'a number has more than four digits' '(link 10000 2)' "$link_due"
departs 'a line that ends early' "$head(link 0\n" 34 2 8 'the line ends too early' '(link 0' "$link_due"
departs 'a capital letter' "$head(Link 0 1)\n" 28 2 2 'a capital letter; the words have small letters' '(Link 0 1)' "$link_due"
departs 'another character' "$head(link 0 \xc2\xbd)\n" 35 2 9 'a character that no line of a network file has' '(link 0 ??)' "$link_due"
departs 'something else' "$head(lunk 0 1)\n" 29 2 3 'this is not the form that is due' '(lunk 0 1)' "$link_due"
departs 'what a terminal would obey, in a long line' "\e[31m$(printf '%0100d' 0)\n" 0 1 1 'this is not the form that is due' "?[31m$(printf '%055d' 0)..." 'a line (net (relays N) (links M))'
departs 'a long number' "$head(link 0 $(printf '%01000d' 7)\n" 36 2 10 'a number has a zero in front' "(link 0 $(printf '%052d' 0)..." "$link_due"
departs 'a compressed file' '\x1f\x8b\x08\0more' 0 1 1 'the file is compressed; unpack it first (gunzip, bunzip2, unxz, unzstd or unzip)' '????more' 'a line (net (relays N) (links M))'
departs 'a comment in front' "# the mesh\n$head$body(end)\n" 0 1 1 'a network file has no comments; delete the line' '# the mesh' 'a line (net (relays N) (links M))'
departs 'a comment among the links' "$head(link 0 1)\nc by hand\n(link 0 2)\n(end)\n" 38 3 1 'a network file has no comments; delete the line' 'c by hand' "$link_due"
departs 'a comment after a link' "$head(link 0 1) % new\n(link 0 2)\n(end)\n" 37 2 11 'a network file has no comments; delete it' '(link 0 1) % new' "$link_due"
departs 'a comment after the links' "$head$body; all\n(end)\n" 49 4 1 'a network file has no comments; delete the line' '; all' "$last_due"
departs 'two links in a line' "$head(link 0 1) (link 0 2)\n(end)\n" 37 2 11 'two links in a line; each link has a line of its own' '(link 0 1) (link 0 2)' "$link_due"
departs 'two links in a line, without a space' "$head(link 0 1)(link 0 2)\n(end)\n" 37 2 11 'two links in a line; each link has a line of its own' '(link 0 1)(link 0 2)' "$link_due"
departs 'a link in line 1' '(net (relays 5) (links 2)) (link 0 1)\n(link 0 2)\n(end)\n' 26 1 27 'two lines in one; each has a line of its own' '(net (relays 5) (links 2)) (link 0 1)' 'a line (net (relays N) (links M))'
departs 'a link of three relays' "$head(link 0 1 2)\n(end)\n" 36 2 10 'a link has two relays; write a line for each link' '(link 0 1 2)' "$link_due"
departs 'a byte 0 between the relays' "$head(link 0\x001)\n(end)\n" 34 2 8 'this is not the form that is due' '(link 0?1)' "$link_due"
departs 'bytes that shells keep for themselves' "$head(link 0\x01\x7f\xff1)\n(end)\n" 34 2 8 'this is not the form that is due' '(link 0???1)' "$link_due"
departs 'a comma between the relays' "$head(link 0,1)\n(end)\n" 34 2 8 'one space is due between the two numbers' '(link 0,1)' "$link_due"
departs 'a sheet' '(sheet (from 4) (to 1) (k 2))\n' 1 1 2 'this is a sheet, not a network file' '(sheet (from 4) (to 1) (k 2))' 'a line (net (relays N) (links M))'
departs 'a refusal' '(refused 18 0)\n' 1 1 2 'this is a refusal, not a network file' '(refused 18 0)' 'a line (net (relays N) (links M))'

# Behind the links: lines (out R), then (end).
departs 'another word behind the links' "$head$body(and)\n" 50 4 2 'this is not the form that is due' '(and)' "$last_due"
departs 'the word of the end' "$head$body(enx)\n" 52 4 4 'this is not the form that is due' '(enx)' 'the line (end)'
departs 'the word of an out line' "$head$body(off 2)\n(end)\n" 51 4 3 'this is not the form that is due' '(off 2)' "$out_due"
departs 'a capital letter of it' "$head$body(Out 2)\n(end)\n" 50 4 2 'a capital letter; the words have small letters' '(Out 2)' "$last_due"
departs 'an out line without a relay' "$head$body(out)\n(end)\n" 53 4 5 'this is not the form that is due' '(out)' "$out_due"
departs 'a zero in front in an out line' "$head$body(out 1)\n(out 02)\n(end)\n" 63 5 7 'a number has a zero in front' '(out 02)' "$out_due"
departs 'five digits in an out line' "$head$body(out 10000)\n(end)\n" 58 4 10 'a number has more than four digits' '(out 10000)' "$out_due"
departs 'two relays in an out line' "$head$body(out 2 3)\n(end)\n" 55 4 7 'a line (out R) has one relay; write a line for each' '(out 2 3)' "$out_due"
departs 'two relays, the first with a zero in front' "$head$body(out 02 3)\n(end)\n" 55 4 7 'a number has a zero in front' '(out 02 3)' "$out_due"
departs 'spaces at the end of an out line' "$head$body(out 2) \n(end)\n" 56 4 8 'spaces at the end of the line' '(out 2) ' "$out_due"
departs 'an out line that ends early' "$head$body(out 1\n(end)\n" 55 4 7 'the line ends too early' '(out 1' "$out_due"
departs 'another word behind an out line' "$head$body(out 1)\n(and)\n" 58 5 2 'this is not the form that is due' '(and)' "$last_due"
departs 'a blank line behind an out line' "$head$body(out 2)\n\n(end)\n" 57 5 1 'a blank line' '' "$last_due"
departs 'an out line cut off' "$head$body(out 2" 55 4 7 'the file ends in the middle of a line' '(out 2' "$out_due"
departs 'no last line behind out lines' "$head$body(out 2)\n(out 3)\n" 65 6 1 'the file ends without its last line, (end)' '' "$last_due"
departs 'no last line end behind an out line' "$head$body(out 2)\n(end)" 62 5 6 'the last line end is missing; press Enter after (end) and save' '(end)' 'the line (end)'
departs 'words behind the end with an out line' "$head$body(out 2)\n(end)\nmore\n" 63 6 1 'something stands after the last line' 'more' 'nothing, since (end) is the last line'
departs 'an out line behind the end' "$head$body(out 1)\n(end)\n(out 2)\n" 63 6 1 'a line (out R) stands after (end); put it in front of that' '(out 2)' 'nothing, since (end) is the last line'
departs 'more links than announced, and an out line' "$head$body(link 0 3)\n(out 2)\n(end)\n" 50 4 2 'line 1 announces 2 links, and the file has 3 link lines; if these are right, announce 3 in line 1' '(link 0 3)' "$last_due"
departs 'fewer links than announced, and an out line' "$head(link 0 1)\n(out 2)\n(end)\n" 39 3 2 'line 1 announces 2 links, and the file has 1 link line; if these are right, announce 1 in line 1' '(out 2)' "$link_due"
departs 'a link too many, behind an out line' "$head$body(out 2)\n(link 0 3)\n(end)\n" 58 5 2 "line 1 announces 2 links, and the file has 3 link lines; if these are right, announce 3 in line 1; $last_place" '(link 0 3)' "$last_due"
departs 'an out line among the links' "$head(link 0 1)\n(out 2)\n(link 0 2)\n(end)\n" 39 3 2 "$last_place" '(out 2)' "$link_due"
departs 'a link behind the end' "$head(link 0 1)\n(end)\n(link 0 2)\n" 39 3 2 'a link line stands after (end)' '(end)' "$link_due"

refused 'no relay' '4 1 2' '(net (relays 0) (links 0))\n(end)\n' '(refused 3 0)' 'nolkisei: refused (3): a.net, line 1, announces 0 relays; 1 to 1,000 are allowed'
refused '3,001 links' '4 1 2' '(net (relays 5) (links 3001))\n' '(refused 4 0)' 'nolkisei: refused (4): a.net, line 1, announces 3001 links; 3,000 are the most. Pass the file on to the network planners'
refused 'a link to no relay' '4 1 2' "$head(link 0 1)\n(link 0 5)\n(end)\n" '(refused 5 1)' 'nolkisei: refused (5): a.net, line 3: (link 0 5) names a relay that the network does not have; it has the relays 0 to 4; if the links are right, announce 6 relays in line 1'
refused 'a link to itself' '4 1 2' "$head(link 2 2)\n(link 0 2)\n(end)\n" '(refused 6 0)' 'nolkisei: refused (6): a.net, line 2: (link 2 2) joins a relay to itself; delete the line and announce 1 link in line 1'
refused 'falling numbers' '4 1 2' "$head(link 0 1)\n(link 3 2)\n(end)\n" '(refused 6 1)' 'nolkisei: refused (6): a.net, line 3: (link 3 2) has its numbers in falling order; write (link 2 3)'
refused 'a link twice' '4 1 2' "(net (relays 5) (links 3))\n(link 1 2)\n(link 0 1)\n(link 1 2)\n(end)\n" '(refused 7 2)' 'nolkisei: refused (7): a.net, line 4: (link 1 2) stands already in line 2; delete one of the two and announce 2 links in line 1'
refused 'K 0' '4 1 0' "$head$body(end)\n" '(refused 9 0)' 'nolkisei: refused (9): a.net: K is 0; 1 to 32 can be asked for'
refused 'FROM is no relay' '5 1 2' "$head$body(end)\n" '(refused 10 0)' 'nolkisei: refused (10): a.net: FROM 5 is not a relay of this network; it has the relays 0 to 4'
refused 'TO is no relay' '1 5 2' "$head$body(end)\n" '(refused 10 0)' 'nolkisei: refused (10): a.net: TO 5 is not a relay of this network; it has the relays 0 to 4'
refused 'neither is a relay' '8 5 2' "$head$body(end)\n" '(refused 10 0)' 'nolkisei: refused (10): a.net: neither FROM 8 nor TO 5 is a relay of this network; it has the relays 0 to 4'
refused 'of one relay' '0 1 1' '(net (relays 1) (links 0))\n(end)\n' '(refused 10 0)' 'nolkisei: refused (10): a.net: TO 1 is not a relay of this network; it has relay 0 alone'
refused 'equal ends' '4 4 1' "$head$body(end)\n" '(refused 11 0)' 'nolkisei: refused (11): a.net: FROM and TO are the same relay, 4'
refused '13 at K 1' '0 3 1' "$head$body(end)\n" '(refused 13 0)' 'nolkisei: refused (13): a.net: there is no route at all between relays 0 and 3; they are in different parts of the network'
refused '13 at K 2' '0 1 2' "$head$body(end)\n" '(refused 13 0)' 'nolkisei: refused (13): a.net: there is no sheet with 2 routes for relays 0 and 1; the greatest K with a sheet is 1: '"$copy/nolkisei plan 0 1 1 a.net"' (docs/DESK.md says why there may be more routes all the same)'
refused '13 at K 2, of relays that are not joined' '0 3 2' "$head$body(end)\n" '(refused 13 0)' 'nolkisei: refused (13): a.net: there is no route at all between relays 0 and 3; they are in different parts of the network'
refused '13 at K 32, of relays that are not joined' '0 3 32' "$head$body(end)\n" '(refused 13 0)' 'nolkisei: refused (13): a.net: there is no route at all between relays 0 and 3'
refused '13 at K 32, of three routes' '2 3 32' "$four" '(refused 13 0)' 'nolkisei: refused (13): a.net: there is no sheet with 32 routes for relays 2 and 3; the greatest K with a sheet is 3: '"$copy/nolkisei plan 2 3 3 a.net"
refused '13 at K 1, with a relay withdrawn' '0 1 1' "$head(link 0 2)\n(link 1 2)\n(out 2)\n(end)\n" '(refused 13 0)' 'nolkisei: refused (13): a.net: there is no route at all between relays 0 and 1 through relays in service (there is 1 line (out R))'

# Withdrawn relays: lines (out R) that are not good, and ends of a wish.
refused 'an out line of no relay' '4 1 2' "$head$body(out 1)\n(out 5)\n(end)\n" '(refused 16 0)' 'nolkisei: refused (16): a.net, line 5: (out 5) names a relay that the network does not have; it has the relays 0 to 4. Correct the number or delete the line'
refused 'an out line of no relay, of one' '0 0 1' '(net (relays 1) (links 0))\n(out 1)\n(end)\n' '(refused 16 0)' 'nolkisei: refused (16): a.net, line 2: (out 1) names a relay that the network does not have; it has relay 0 alone. Correct'
refused 'an out line twice' '4 1 2' "$head$body(out 1)\n(out 2)\n(out 2)\n(end)\n" '(refused 16 0)' 'nolkisei: refused (16): a.net, line 6: (out 2) stands already in line 5; delete one of the two'
refused 'an out line twice, with another between' '4 1 2' "$head$body(out 1)\n(out 3)\n(out 1)\n(end)\n" '(refused 16 0)' 'nolkisei: refused (16): a.net, line 6: (out 1) stands already in line 4; delete one of the two'
refused 'out lines in falling order' '4 1 2' "$head$body(out 3)\n(out 1)\nmore\n" '(refused 16 0)' 'nolkisei: refused (16): a.net, line 5: (out 1) is not in rising order after (out 3); order the lines (out R) by number, the lowest first'
refused 'out lines of 9 and 10' '10 9 1' '(net (relays 11) (links 0))\n(out 9)\n(out 10)\n(out 8)\n(end)\n' '(refused 16 0)' 'nolkisei: refused (16): a.net, line 4: (out 8) is not in rising order after (out 10); order'
refused 'a FROM that is withdrawn' '2 1 1' "$head$body(out 2)\n(end)\n" '(refused 17 0)' 'nolkisei: refused (17): a.net, line 4: FROM 2 is withdrawn, by (out 2); choose another relay; or, when relay 2 is back in service, delete the line and ask again'
refused 'a TO that is withdrawn' '1 3 1' "$head$body(out 2)\n(out 3)\n(end)\n" '(refused 17 0)' 'nolkisei: refused (17): a.net, line 5: TO 3 is withdrawn, by (out 3); choose another relay; or, when relay 3 is back in service, delete the line and ask again'
same 'FROM is not named with it' 1 "$(printf '%s\n' "$words" | wc -l)"
refused 'both ends withdrawn' '3 2 1' "$head$body(out 2)\n(out 3)\n(end)\n" '(refused 17 0)' $'nolkisei: refused (17): a.net, line 5: FROM 3 is withdrawn, by (out 3); choose another relay; or, when relay 3 is back in service, delete the line and ask again\nnolkisei: refused (17): a.net, line 4: TO 2 is withdrawn, by (out 2); choose'
ask "$copy/nolkisei" plan 4 1 1 "$copy/networks/mesh-without-2.net"
same 'a sheet past a withdrawn relay' $'(sheet (from 4) (to 1) (k 1))\n(route 4 3 1)\n(over 6 3)\n(kept 3)\n(end)\nstatus 0' "$output$words"
ask "$copy/nolkisei" keep 1 "$copy/networks/mesh-without-2.net"
same 'a list with idle links' $'(lease (k 1))\n(keep 0 0 1)\n(idle 1 0 2)\n(idle 2 1 2)\n(keep 3 1 3)\n(idle 4 2 3)\n(idle 5 2 4)\n(keep 6 3 4)\n(kept 3)\n(dropped 0)\n(withdrawn 4)\n(end)\nstatus 0' "$output$words"

refused 'a FROM with a zero in front' '04 1 2' "$mesh" '(refused 1 7)' "nolkisei: refused (1): a.net: FROM is '04': it has a zero in front; a number has one to four digits and no zero in front"
refused 'a TO that is too long' '4 12345 2' "$mesh" '(refused 1 12)' "nolkisei: refused (1): a.net: TO is '12345': it has more than four digits"
refused 'a K with a minus sign' '4 1 -2' "$mesh" '(refused 1 10)' "nolkisei: refused (1): a.net: K is '-2': it has something other than digits in it"
ask "$copy/nolkisei" plan 4 '' 2 "$mesh_file"
says 'an empty TO' 1 "nolkisei: refused (1): $mesh_shown: TO is '': it is empty"
ask "$copy/nolkisei" plan 4 '1 2)' 2 "$mesh_file"
says 'a TO with a space' 1 "nolkisei: refused (1): $mesh_shown: TO is '1 2)': it has something other than digits in it"
ask "$copy/nolkisei" plan '%d' $'\e[31m' '4\n1' "$mesh_file"
same 'arguments that printf or a terminal would obey: the line' $'(refused 1 6)\nstatus 1' "$output"
says 'arguments that printf or a terminal would obey' 1 $'FROM is \'%d\': it has something other than digits in it; a number has one to four digits and no zero in front\nnolkisei: refused (1): '"$mesh_shown: TO is '?[31m'"
printf '(end)\n' >"$work/end.net"
ask "$copy/nolkisei" plan $'0 1 1)\n(net (relays 2) (links 1))\n(link' 0 1 end.net
same 'a network among the arguments: nothing is passed on' 'status 2' "$output"
says 'a network among the arguments' 2 'nolkisei: FROM has a line end in it; it is to be a plain number'
ask "$copy/nolkisei" keep $'1)\n(net (relays 2) (links 0)' end.net
says 'the same for keep' 2 'nolkisei: K has a line end in it'
ask "$copy/nolkisei" keep 040 "$mesh_file"
same 'keep, refused: the line' $'(refused 1 7)\nstatus 1' "$output"
says 'keep, refused' 1 "nolkisei: refused (1): $mesh_shown: K is '040': it has a zero in front"
ask "$copy/nolkisei" keep 33 "$mesh_file"
says 'keep, K 33' 1 'nolkisei: refused (9): '"$mesh_shown"': K is 33; 1 to 32 can be asked for'
printf '%b' "$head(link 0 1)\n(link 0 1)\n(end)\n" >"$work/a.net"
ask "$copy/nolkisei" keep 3 a.net
says 'keep, a link twice' 1 'nolkisei: refused (7): a.net, line 3: (link 0 1) stands already in line 2'
printf '%b' "$head$body(out 2)\n(out 2)\n(end)\n" >"$work/a.net"
ask "$copy/nolkisei" keep 3 a.net
says 'keep, an out line twice' 1 'nolkisei: refused (16): a.net, line 5: (out 2) stands already in line 4; delete one of the two'

# What is said of a network file is the same by each command that reads one, and each line names the file.
for command in 'plan 4 1 2' 'keep 1' sure; do
    for text in '# x:a network file has no comments' '(net (relays 5) (links 2))\n(link 0 1) (link 0 2)\n:two links in a line' \
        '(net (relays 5) (links 3))\n(link 0 1)\n(end)\n:announce 1 in line 1' '\x1f\x8b\x08:the file is compressed'; do
        printf '%b' "${text%:*}" >"$work/a.net"
        # shellcheck disable=SC2086
        ask "$copy/nolkisei" $command a.net
        says "$command: ${text##*:}" 1 "${text##*:}"
        same "$command: ${text##*:}: each line names the file" '' "$(grep '^nolkisei' "$room/words" | grep -v 'a\.net')"
    done
done

# Longer than any network file: the longest text with every relay withdrawn, and more after it.
{ longest 1000 && printf '(end)\n%05000d\n' 0; } >"$work/a.net"
ask "$copy/nolkisei" keep 1 a.net
same 'too long: the refused line' $'(refused 2 54929)\nstatus 1' "$output"
says 'too long' 1 'nolkisei: refused (2): a.net, line 4003, column 1: something stands after the last line, and the file has 59936 bytes, where the longest network file has 54,929'
