# For tests/launcher: what `import` prints, what it says of each refusal and of files and programs that are no good, and what the other
# commands say of a drawing.
imported=$(cat "$mesh_file")$'\nstatus 0'
drawn='p edge 5 7\ne 1 2\ne 3 1\ne 2 3\ne 4 2\ne 3 4\ne 3 5\ne 5 4\n'

# misdrawn WHAT DRAWING REFUSAL LINE COLUMN CAUSE SHOWN [DUE]: a drawing with this refusal, and just these words: the line that is
# shown, and what is due there.
misdrawn() {
    local due=${8:+$'\n'"nolkisei: a.col, line $4: due there: $8"} pad
    pad=$(printf '%*s' "$5" '^')
    printf '%b' "$2" >"$work/a.col"
    ask "$copy/nolkisei" import a.col
    same "$1: the refused line" "(refused $3)"$'\nstatus 1' "$output"
    same "$1" "nolkisei: refused (${3% *}): a.col, line $4, column $5: $6"$'\n    '"$7"$'\n    '"$pad$due" "$words"
}

# imports WHAT DRAWING NETWORK: a drawing, and the network that is printed for it.
imports() {
    printf '%b' "$2" >"$work/a.col"
    ask "$copy/nolkisei" import a.col
    same "$1" "$(printf '%b' "$3")"$'\nstatus 0' "$output$words"
}

ask "$copy/nolkisei" import "$copy/networks/mesh.col"
same 'the mesh as a drawing' "$imported" "$output$words"
imports 'ends in either order' "$drawn" "$mesh"
imports 'comments anywhere' "c FILE mesh.col\nc\n${drawn/e 3 1/c \\nc e 9 9\\xff\\0\\r\\ne 3 1}c behind\n" "$mesh"
imports 'no link' 'p edge 1 0\n' '(net (relays 1) (links 0))\n(end)\n'

# 18: the line with its cause.
problem_due='a line p edge N M, for N relays, 1 to 1,000, and M links, at most 3,000'
edge_due='a line e U V, for a link between the relays U and V'
comment_due='a comment line: c alone, or c, a space and any words'
first_due='a line p edge N M or a comment line'
next_due='a line e U V, 1 of 1, or a comment line'
last_due='a comment line or the end of the file'
top='p edge 3 1\n'
returns='a carriage return; save the file with the line ends of Unix (LF), not of Windows (CR LF)'
no_end='the last line end is missing; press Enter after the last line and save'
no_space='a comment line has a space after its c; put one there'
extra='something stands after the two numbers; take it off (weights and lengths are not read)'
misdrawn 'p col' 'p col 3 1\ne 1 2\n' '18 2' 1 3 'the word after p is col; write p edge (the other lines of such a file are the same)' 'p col 3 1' "$problem_due"
misdrawn 'p edges' 'c\np edges 3 1\ne 1 2\n' '18 8' 2 7 'the word after p is edges; write p edge' 'p edges 3 1' "$problem_due"
misdrawn 'another form' 'p sp 3 1\na 1 2 7\n' '18 2' 1 3 'p sp is another DIMACS form; a drawing has p edge and its links in lines e U V' 'p sp 3 1' "$problem_due"
misdrawn 'no space behind the word' 'p edge3 1\ne 1 2\n' '18 6' 1 7 'the word after p is edge3; write p edge' 'p edge3 1' "$problem_due"
misdrawn 'no word after p' 'p 3 1\ne 1 2\n' '18 2' 1 3 'the word edge is missing after p' 'p 3 1' "$problem_due"
misdrawn 'n lines' "${top}n 1 2\ne 1 2\n" '18 11' 2 1 'lines that begin with n are of other DIMACS forms and have no link; delete them' 'n 1 2' "$next_due"
misdrawn 'n lines behind the links' "${top}e 1 2\nn 1 2\n" '18 17' 3 1 'lines that begin with n are of other DIMACS forms and have no link; delete them' 'n 1 2' "$last_due"
misdrawn 'a lines' "${top}a 1 2 7\n" '18 11' 2 1 'lines that begin with a are of the DIMACS form for shortest paths; write e U V for each link, once and without its length' 'a 1 2 7' "$next_due"
misdrawn 'spaces at the end of an e line' "${top}e 1 2  \n" '18 16' 2 6 'spaces at the end of the line' 'e 1 2  ' "$edge_due"
misdrawn 'a space at the end of the p line' 'p edge 3 1 \ne 1 2\n' '18 10' 1 11 'spaces at the end of the line' 'p edge 3 1 ' "$problem_due"
misdrawn 'a space at the start' "$top e 1 2\n" '18 11' 2 1 'spaces at the start of the line' ' e 1 2' "$next_due"
misdrawn 'two spaces' "${top}e 1  2\n" '18 15' 2 5 'two spaces; one is due between words and numbers' 'e 1  2' "$edge_due"
misdrawn 'a tab' "${top}e 1\t2\n" '18 14' 2 4 'a tab; one space is due between words and numbers' 'e 1?2' "$edge_due"
misdrawn 'carriage returns' 'c by hand\r\np edge 3 1\r\ne 1 2\r\n' '18 21' 2 11 "$returns" 'p edge 3 1?' "$problem_due"
misdrawn 'carriage returns, with c alone' 'c\r\np edge 3 1\r\n' '18 1' 1 2 "$returns" 'c?' "$comment_due"
misdrawn 'no last line end' "${top}e 1 2" '18 16' 2 6 "$no_end" 'e 1 2' "$edge_due"
misdrawn 'no line end behind the p line' 'p edge 3 0' '18 10' 1 11 "$no_end" 'p edge 3 0' "$problem_due"
misdrawn 'no line end behind a comment' "${top}e 1 2\nc end" '18 22' 3 6 "$no_end" 'c end' "$comment_due"
misdrawn 'a line cut off' "${top}e 1 " '18 15' 2 5 'the file ends in the middle of a line' 'e 1 ' "$edge_due"
misdrawn 'a blank line' "$top\ne 1 2\n" '18 11' 2 1 'a blank line' '' "$next_due"
misdrawn 'a blank line at the end' "${top}e 1 2\n\n" '18 17' 3 1 'a blank line' '' "$last_due"
misdrawn 'no p line' 'c\ne 1 2\ne 1 3\n' '18 2' 2 1 'no p line stands in front of the e lines; put a line p edge N M there, with the number of relays for N and 2 for M' 'e 1 2' "$first_due"
misdrawn 'a p line behind an e line' "e 1 2\n$top" '18 0' 1 1 'the p line stands after this e line, in line 2; put it in front of all e lines' 'e 1 2' "$first_due"
misdrawn 'a second p line' "c\n$top$top" '18 13' 3 1 'a second p line; the first is line 2. Delete one of the two' 'p edge 3 1' "$next_due"
misdrawn 'fewer e lines than announced' "c\np edge 3 3\ne 1 2\nc\ne 1 3\n" '18 27' 6 1 'the file ends too early: line 2 announces 3 links, and the file has 2 e lines; if that is right, announce 2 there' '' 'a line e U V, 3 of 3, or a comment line'
misdrawn 'more e lines than announced' "${top}e 1 2\ne 1 3\n" '18 17' 3 1 'line 1 announces 1 link, and the file has 2 e lines; if that is right, announce 2 there' 'e 1 3' "$last_due"
misdrawn 'comments alone' 'c x\n' '18 4' 2 1 'the file ends without a line p edge N M' '' "$first_due"
misdrawn 'an empty drawing' '' '18 0' 1 1 'the file is empty' '' "$first_due"
misdrawn 'a zero in front' "${top}e 01 2\n" '18 14' 2 4 'a number has a zero in front' 'e 01 2' "$edge_due"
misdrawn 'five digits' 'p edge 500 12458\n' '18 15' 1 16 'a number has more than four digits' 'p edge 500 12458' "$problem_due"
misdrawn 'a weight' "${top}e 1 2 25\n" '18 16' 2 6 "$extra" 'e 1 2 25' "$edge_due"
misdrawn 'a third number in the p line' 'p edge 3 1 9\ne 1 2\n' '18 10' 1 11 "$extra" 'p edge 3 1 9' "$problem_due"
misdrawn 'one relay' "${top}e 1\n" '18 14' 2 4 'the line ends too early' 'e 1' "$edge_due"
misdrawn 'a comment without a space' "cx\n$top" '18 1' 1 2 "$no_space" 'cx' "$comment_due"
misdrawn 'a comment with a tab' "${top}c\tx\n" '18 12' 2 2 "$no_space" 'c?x' "$comment_due"
misdrawn 'a comment with %' "% by hand\n$top" '18 0' 1 1 'a comment line begins with c and a space, not with %' '% by hand' "$first_due"
misdrawn 'a comment with #' "${top}e 1 2\n# by hand\n" '18 17' 3 1 'a comment line begins with c and a space, not with #' '# by hand' "$last_due"
misdrawn 'numbers alone' "${top}1 2\n" '18 11' 2 1 'a line of numbers alone; the line of a link begins with e and a space' '1 2' "$next_due"
misdrawn 'a capital letter' "${top}E 1 2\n" '18 11' 2 1 'a capital letter; the words have small letters' 'E 1 2' "$next_due"
misdrawn 'another character' "${top}e 1 \xc2\xbd\n" '18 15' 2 5 'a character that no line of a drawing has' 'e 1 ??' "$edge_due"
misdrawn 'something else' "${top}e 1-2\n" '18 14' 2 4 'this is not the form that is due' 'e 1-2' "$edge_due"
misdrawn 'a byte-order mark' "\xef\xbb\xbf$top" '18 0' 1 1 'the file begins with a byte-order mark; save it without one' '???p edge 3 1' "$first_due"
misdrawn 'a compressed file' '\x1f\x8b\x08\0more' '18 0' 1 1 'the file is compressed; unpack it first (gunzip, bunzip2, unxz, unzstd or unzip)' '????more' "$first_due"
misdrawn 'a binary file' '29\nc x\np col 3 1\n\x80\xc0' '18 0' 1 1 'this looks like the binary DIMACS form (.col.b); make the text form of it first (the public program bin2asc does)' '29' "$first_due"
misdrawn 'a network file' "$mesh" '18 0' 1 1 'this is a network file already; it needs no import' '(net (relays 5) (links 7))' "$first_due"
misdrawn 'a sheet for a drawing' '(sheet (from 4) (to 1) (k 1))\n' '18 0' 1 1 'this is a sheet, not a drawing' '(sheet (from 4) (to 1) (k 1))' "$first_due"

# 3 to 7: the line with its number.
repeats='(many files have each link in both directions), and announce'
misdrawn 'a drawing of no relay' 'c\np edge 0 1\n' '3 0' 2 8 '0 relays; 1 to 1,000 are allowed' 'p edge 0 1'
misdrawn 'a drawing of 1,001 relays' 'p edge 1001 9999\nx' '3 0' 1 8 '1001 relays; 1 to 1,000 are allowed' 'p edge 1001 9999'
misdrawn 'a drawing of 3,001 links' 'p edge 90 3001\n' '4 0' 1 11 '3001 links; 3,000 are the most' 'p edge 90 3001'
misdrawn 'a drawing of 3,001 links, some twice' 'p edge 9 3001\ne 1 2\ne 2 1\ne 1 3\n' '4 0' 1 10 "3001 links; 3,000 are the most; delete the e lines that repeat an earlier one, 1 of 3 $repeats 2 links in line 1" 'p edge 9 3001'
misdrawn 'numbers from 0' "c\n${top}c\ne 0 1\n" '5 0' 4 3 'relays are numbered from 1, and this is relay 0; if the file is numbered from 0, raise each number in its e lines by one' 'e 0 1'
misdrawn 'a second end that is no relay' 'p edge 12 2\ne 10 12\nc\ne 10 13\n' '5 1' 4 6 'there is no relay 13; the relays are 1 to 12 (line 1)' 'e 10 13'
misdrawn 'a drawing of one relay' 'p edge 1 1\ne 2 1\n' '5 0' 2 3 'there is no relay 2; relay 1 is all (line 1)' 'e 2 1'
misdrawn 'a link to itself' 'p edge 3 2\ne 1 2\ne 2 2\n' '6 1' 3 5 'this joins relay 2 to itself; delete the line and announce one link less in line 1' 'e 2 2'
misdrawn 'a link twice' "c\np edge 3 3\ne 3 1\ne 1 2\nc\ne 3 1\n" '7 2' 6 3 "this link stands already in line 3; delete the e lines that repeat an earlier one, 1 of 3 $repeats 2 links in line 2" 'e 3 1'
misdrawn 'each link in both directions' 'p edge 10 4\ne 9 10\ne 2 1\ne 1 2\ne 10 9\n' '7 2' 4 3 "this link stands already in line 3, with its ends exchanged; delete the e lines that repeat an earlier one, 2 of 4 $repeats 2 links in line 1" 'e 1 2'

# Pipes, folders, links and names; and the file that is written is one that the others read.
printf '%b' "$drawn" | tee "$work/-m.col" "$work/two words.col" >"$work/m.col"
for name in -m.col 'two words.col' ../work/m.col "$work/m.col"; do
    ask "$copy/nolkisei" import "$name"
    same "the drawing '$name'" "$imported" "$output$words"
done
CDPATH=/ ask env PATH="$copy:$PATH" nolkisei import m.col
same 'import, by its name alone' "$imported" "$output$words"
ask bash -c "'$copy/nolkisei' import /dev/stdin <m.col"
same 'a drawing through standard input' "$imported" "$output$words"
ask bash -c "cat m.col | '$copy/nolkisei' import /dev/stdin"
same 'a drawing through a pipe' "$imported" "$output$words"
ask bash -c "'$copy/nolkisei' import <(cat m.col)"
same 'a drawing from another command' "$imported" "$output$words"
ask bash -c "'$copy/nolkisei' import m.col >new.net && '$copy/nolkisei' plan 4 1 1 new.net"
same 'a sheet for an imported network' "$sheet" "$output$words"

# A drawing for a network file or a sheet.
seen='line 1, column 1: this looks like a drawing in the DIMACS form; make a network file of it first: '"$copy/nolkisei import"
ask "$copy/nolkisei" plan 4 1 1 m.col
same 'plan, a drawing: the line' $'(refused 2 0)\nstatus 1' "$output"
same 'plan, a drawing' "nolkisei: refused (2): m.col, $seen m.col > NEW.net"$'\n    p edge 5 7\n    ^\nnolkisei: m.col, line 1: due there: a line (net (relays N) (links M))' "$words"
printf 'c FILE mesh.col\nc\n\np col 5 7\n' >"$work/a.col"
ask "$copy/nolkisei" keep 1 a.col
says 'keep, a drawing with comments' 1 "nolkisei: refused (2): a.col, $seen a.col > NEW.net"
printf 'e 1 2\n' >"$work/a.col"
ask "$copy/nolkisei" verify a.col "$copy/networks/mesh.sheet"
says 'verify, a drawing without a p line' 1 "nolkisei: refused (2): a.col, $seen a.col > NEW.net"
ask "$copy/nolkisei" verify "$mesh_file" m.col
says 'verify, a drawing for a sheet' 1 'nolkisei: refused (14): m.col, line 1, column 1: this is a drawing, not a sheet'

# The commands of docs/DESK.md that make a drawing of a file with what this form refuses: each link in both directions, and more.
mend=$(sed -n '/^    tr -d/,/>new.col$/p' docs/DESK.md)
printf '%b' '# by hand\r\nc\tmesh\r\np col  5 14\r\n\r\nn 1 2\r\n' >"$work/old.col"
printf '%b' "$drawn" | awk '$1 == "e" { printf "e\t%s  %s 9 \r\ne %s %s\r\n", $2, $3, $3, $2 }' >>"$work/old.col"
ask bash -c "$mend && '$copy/nolkisei' import new.col"
same 'a file that is mended' "$imported" "$output$words"
printf 'p edge 1 1' >"$work/old.col"
ask bash -c "$mend && '$copy/nolkisei' import new.col"
same 'a file without links that is mended' $'(net (relays 1) (links 0))\n(end)\nstatus 0' "$output$words"

# Files and programs that are no good.
for arguments in '' 'm.col new.net'; do
    # shellcheck disable=SC2086
    ask "$copy/nolkisei" import $arguments
    says "import, the arguments '$arguments'" 2 "usage: nolkisei import FILE ($copy/nolkisei help import tells more)"
done
ask "$copy/nolkisei" import none.col
says 'import, a missing file' 2 'nolkisei: there is no file none.col'
ask "$copy/nolkisei" import .
says 'import, a folder' 2 'nolkisei: . is a folder, not a drawing'
ask "$copy/nolkisei" import /proc/self/mem
says 'import, a file that breaks off' 2 'nolkisei: /proc/self/mem cannot be read to its end'
ask "$copy/nolkisei" import /dev/zero
same 'import, a file that never ends: nothing is passed on' 'status 2' "$output"
says 'import, a file that never ends' 2 'nolkisei: /dev/zero has more than 1,000,000 bytes, and a drawing has at most so many'
ask bash -c "'$copy/nolkisei' import m.col >/dev/full"
says 'import, nowhere to write' 2 'could not be written to standard output'
for part in 'exit 3: could not be run to its end' 'echo "(net (relays 5) (links 0))": not whole' 'echo "(lease (k 1))"; echo "(end)": not whole' 'echo "(refused 18": not whole' ': : gave no answer'; do
    instead importer "${part%: *}" "${part##*: }" "$copy/nolkisei" import m.col
done
restore importer
