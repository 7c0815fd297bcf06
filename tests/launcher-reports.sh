# For tests/launcher: what `reports` and `stands` print and say beside it, what they say of each refusal and of files and programs that
# are no good, and what the other commands say of reports.
whole='(report 4 7 (sees 2 3))\n(report 0 12 (sees 1 2))\n(report 2 4294967295 (sees 0 1 3 4))\n(report 1 3 (sees 0 2 3))\n(report 3 0 (sees 1 2 4))\n'

# makes WHAT N SET NETWORK [WORDS]: a set of reports, the network that it makes, and the lines of words behind the name of the file.
makes() {
    local due=${5:-}
    printf '%b' "$3" >"$work/a.reports"
    ask "$copy/nolkisei" reports "$2" a.reports
    same "$1: the network" "$(printf '%b' "$4")"$'\nstatus 0' "$output"
    same "$1" "${due:+nolkisei: a.reports: ${due//$'\n'/$'\n'nolkisei: a.reports: }}" "$words"
}

# unmade WHAT N SET REFUSAL WORDS: a set that is refused, and just these words behind the refusal's number and the name of the file.
unmade() {
    printf '%b' "$3" >"$work/a.reports"
    ask "$copy/nolkisei" reports "$2" a.reports
    same "$1: the refused line" "(refused $4)"$'\nstatus 1' "$output"
    same "$1" "nolkisei: refused (${4% *}): a.reports$5" "$words"
}

one_end='seen from one end only and left out of the network'
silent='without a report and withdrawn'
makes 'the mesh' 5 "$whole" "$mesh"
makes 'the mesh, with a relay that only one end sees' 5 "$(cat "$copy/networks/mesh.reports")\n" "$mesh" "1 link is $one_end: relay 3 sees 0, but 0 does not see 3"
same 'the guide has these words' 1 "$(grep -cF "'${words#*a.reports: }'" docs/DESK.md)"
makes 'reports in any order' 5 '(report 4 1 (sees 2 3))\n(report 2 7 (sees 0 1 3 4))\n(report 3 0 (sees 1 2))\n(report 0 0 (sees 2))\n' \
    '(net (relays 5) (links 3))\n(link 0 2)\n(link 2 3)\n(link 2 4)\n(out 1)\n(end)\n' \
    "3 links are $one_end: relay 2 sees 1, but 1 does not report; relay 3 sees 1, but 1 does not report; relay 4 sees 3, but 3 does not see 4"$'\n'"1 relay is $silent: 1"
makes 'no report' 2 '' '(net (relays 2) (links 0))\n(out 0)\n(out 1)\n(end)\n' "2 relays are $silent: 0, 1"
makes 'relays that see none' 2 '(report 1 0 (sees))\n(report 0 9 (sees))\n' '(net (relays 2) (links 0))\n(end)\n'
makes 'one relay' 1 '(report 0 4294967295 (sees))\n' '(net (relays 1) (links 0))\n(end)\n'
makes 'more than are named' 9 '(report 8 1 (sees 0 1 2 3 4 5))\n(report 0 1 (sees 8))\n(report 3 1 (sees))\n' \
    '(net (relays 9) (links 1))\n(link 0 8)\n(out 1)\n(out 2)\n(out 4)\n(out 5)\n(out 6)\n(out 7)\n(end)\n' \
    "5 links are $one_end: relay 8 sees 1, but 1 does not report; relay 8 sees 2, but 2 does not report; relay 8 sees 3, but 3 does not see 8; relay 8 sees 4, but 4 does not report; and 1 more"$'\n'"6 relays are $silent: 1, 2, 4, 5, and 2 more"
makes 'the highest relays' 1000 '(report 999 1 (sees 998))\n(report 998 1 (sees 999))\n' "(net (relays 1000) (links 1))\n(link 998 999)\n$(printf '(out %d)\\n' {0..997})(end)\n" "998 relays are $silent: 0, 1, 2, 3, and 994 more"

# 1 and 3: N. 4, 5 and 20: the lines of the set.
unmade 'an N with a zero in front' 05 "$whole" '1 10' ": N is '05': it has a zero in front; a number has one to four digits and no zero in front"
unmade 'an N that is too long' 10000 "$whole" '1 13' ": N is '10000': it has more than four digits; a number has one to four digits and no zero in front"
unmade 'an N that is no number' x "$whole" '1 9' ": N is 'x': it has something other than digits in it; a number has one to four digits and no zero in front"
unmade 'an empty N' '' "$whole" '1 9' ": N is '': it is empty; a number has one to four digits and no zero in front"
ask "$copy/nolkisei" reports $'5)\n(report 0 1 (sees)' a.reports
same 'a report among the arguments' $'status 2nolkisei: N has a line end in it; it is to be a plain number' "$output$words"
unmade 'N 0' 0 "$whole" '3 0' ': N is 0; a network has 1 to 1,000 relays'
unmade 'N 1001, before what departs' 1001 'x' '3 0' ': N is 1001; a network has 1 to 1,000 relays'
unmade 'a relay that reports and is not there' 4 "$whole" '5 0' ", line 1: relay 4 reports, but N is 4, so the relays are 0 to 3; if the set is right, ask for more relays: $copy/nolkisei reports 5 a.reports"
unmade 'a relay that is seen and is not there' 3 '(report 0 1 (sees 2 3 7))\n(report 1 1 (sees 12))\n' '5 0' ", line 1: relay 0 sees relay 3, but N is 3, so the relays are 0 to 2; if the set is right, ask for more relays: $copy/nolkisei reports 13 a.reports"
unmade 'two relays, of one' 1 '(report 0 1 (sees))\n(report 999 1 (sees 998))\n' '5 0' ", line 2: relay 999 reports, but N is 1, so relay 0 is all; if the set is right, ask for more relays: $copy/nolkisei reports 1000 a.reports"
ask bash -c "$(sed -n 's/.*more relays: //p' "$room/words")"
same 'what was suggested works' '(net (relays 1000) (links 0))' "${output%%$'\n'*}"
unmade 'a line twice' 5 "$whole(report 0 12 (sees 1 2))\n" '20 0' ', line 6: relay 0 has a report in line 2 already, and this is the same; delete one of the two'
unmade 'two reports of a relay' 5 '(report 0 1 (sees))\n(report 3 4 (sees 1))\n(report 1 1 (sees))\n(report 3 7 (sees 2))\n(report 1 2 (sees))\n' '20 0' \
    ", line 4: relay 3 has a report in line 2 already; ask which of the two stands, and delete the other: $copy/nolkisei stands <(sed -n 2p a.reports) <(sed -n 4p a.reports). In all, 2 lines repeat a relay"
ask bash -c "$(sed -n 's/.*the other: \(.*\)\. In all.*/\1/p' "$room/words")"
same 'what was suggested tells which one stands' $'(report 3 7 (sees 2))\nstatus 0' "$output"
says 'what was suggested tells why' 0 'the second report stands: its serial 7 comes 3 after 4, that of the first ('
printf '(report 0 1 (sees))\n(report 0 2 (sees))\n' >"$work/a.reports"
ask bash -c "'$copy/nolkisei' reports 5 - <a.reports"
says 'two reports of a relay on standard input' 1 "nolkisei: refused (20): standard input, line 2: relay 0 has a report in line 1 already; put each into a file of its own, ask which of the two stands ($copy/nolkisei stands FIRST SECOND), and leave the other out"
unmade '3,003 links' 78 "$(awk 'BEGIN { for (a = 0; a < 78; a++) { s = "(report " a " 1 (sees"; for (b = 0; b < 78; b++) if (b != a) s = s " " b; print s "))" } }')\n" '4 0' ': the set makes 3003 links, and 3,000 are the most. Pass the set on to the network planners'

# 19: in a set behind another line, and for one of two reports. What is shown is the line, and where it departs also what is due.
report_due='a line (report R S (sees A B ..))'
good='(report 4 7 (sees 2 3))\n'

# neither WHAT LINE COLUMN CAUSE SHOWN [DUE]: the file a.report is no report, whether it is the first of two or the second.
neither() {
    local pad two
    pad=$(printf '%*s' "$3" '^')
    for two in 'a.report good.report' 'good.report a.report'; do
        # shellcheck disable=SC2086
        ask "$copy/nolkisei" stands $two
        same "$1, $two: the refused line" $'(refused 19 0)\nstatus 1' "$output"
        same "$1, $two" "nolkisei: refused (19): a.report, line $2, column $3: $4"$'\n    '"$5"$'\n    '"$pad${6:+$'\n'"nolkisei: a.report, line $2: due there: $6"}" "$words"
    done
}

# no_report WHAT TEXT COLUMN CAUSE SHOWN [DUE [KIND]]: a text whose first line is no report, as one of two files and as line 2 of a set
# that goes on after it; where the words about a set name a KIND of its own, as line 1.
no_report() {
    local pad line=2 front='(report 0 1 (sees))\n' back='' due=${6:-}
    pad=$(printf '%*s' "$3" '^')
    [ -z "${7:-}" ] || line=1 front=''
    [ "${2%'\n'}" = "$2" ] || back='(report 3 1 (sees))\n'
    [ -z "$due" ] || [ "$3" -gt 1 ] || due+=' or the end of the file'
    unmade "$1, in a set" 5 "$front$2$back" '19 0' ", line $line, column $3: ${4/%a report/${7:-a report}}"$'\n    '"$5"$'\n    '"$pad${due:+$'\n'"nolkisei: a.reports, line $line: due there: $due"}"
    printf '%b' "$2" >"$work/a.report"
    neither "$1" 1 "${@:3:4}"
}

# no_second WHAT AFTER CAUSE SHOWN: what may not stand after a report.
no_second() {
    printf '%b' "(report 4 1 (sees 2))\n$2" >"$work/a.report"
    neither "$1" 2 1 "$3" "$4" 'nothing, since a report is one line'
}

printf '%b' "$good" >"$work/good.report"
higher='the highest number of a relay is 999'
rising='neighbours stand in rising order, each once'
returns='a carriage return; save the file with the line ends of Unix (LF), not of Windows (CR LF)'
no_report 'a serial past its range' '(report 4 4294967296 (sees))\n' 11 'the serial 4294967296 is past 4294967295, the highest' '(report 4 4294967296 (sees))'
no_report 'a serial of many digits' '(report 4 1234567890123456789012 (sees))\n' 11 'the serial 12345678901234567... is past 4294967295, the highest' '(report 4 1234567890123456789012 (sees))'
no_report 'a serial with a zero in front' '(report 4 07 (sees))\n' 11 'the number 07 has a zero in front' '(report 4 07 (sees))'
no_report 'no serial' '(report 4 (sees))\n' 11 'this is not the form that is due' '(report 4 (sees))' "$report_due"
no_report 'a relay over 999' '(report 1000 1 (sees))\n' 9 "there is no relay 1000; $higher" '(report 1000 1 (sees))'
no_report 'a neighbour over 999' '(report 4 1 (sees 3 10000))\n' 21 "there is no relay 10000; $higher" '(report 4 1 (sees 3 10000))'
no_report 'a neighbour with a zero in front' '(report 4 1 (sees 00))\n' 19 'the number 00 has a zero in front' '(report 4 1 (sees 00))'
no_report 'its own relay' '(report 4 1 (sees 3 4))\n' 21 'relay 4 is among those it sees; take it out' '(report 4 1 (sees 3 4))'
no_report 'a neighbour twice' '(report 4 1 (sees 3 3))\n' 21 "neighbour 3 is not above the one before it, 3; $rising" '(report 4 1 (sees 3 3))'
no_report 'neighbours that fall' '(report 4 1 (sees 10 9))\n' 22 "neighbour 9 is not above the one before it, 10; $rising" '(report 4 1 (sees 10 9))'
no_report 'a space for none' '(report 4 1 (sees ))\n' 19 'a relay that sees none has (sees), without a space' '(report 4 1 (sees ))' "$report_due"
no_report 'a space too many' '(report 4 1 (sees 2 ))\n' 21 'a space stands in front of the bracket; take it off' '(report 4 1 (sees 2 ))' "$report_due"
no_report 'two spaces' '(report 4  1 (sees 2))\n' 11 'two spaces; one is due between words and numbers' '(report 4  1 (sees 2))' "$report_due"
no_report 'a tab' '(report 4\t1 (sees 2))\n' 10 'a tab; one space is due between words and numbers' '(report 4?1 (sees 2))' "$report_due"
no_report 'a comma' '(report 4 1 (sees 2,3))\n' 20 'one space is due between two numbers' '(report 4 1 (sees 2,3))' "$report_due"
no_report 'another word' '(report 4 1 (seen))\n' 17 'this is not the form that is due' '(report 4 1 (seen))' "$report_due"
no_report 'a capital letter' '(Report 4 1 (sees))\n' 2 'a capital letter; the words have small letters' '(Report 4 1 (sees))' "$report_due"
no_report 'another character' '(report 4 1 (sees \xc2\xbd))\n' 19 'a character that no line of a report has' '(report 4 1 (sees ??))' "$report_due"
no_report 'a NUL byte' '(report 4 1 (sees))\0\n' 20 'something stands after the report' '(report 4 1 (sees))?' "$report_due"
no_report 'a broken line' '(report 4 1 (sees 2\n3))\n' 20 'the line ends too early (mail programs break long lines)' '(report 4 1 (sees 2' "$report_due"
no_report 'carriage returns' '(report 4 1 (sees 2))\r\n' 22 "$returns" '(report 4 1 (sees 2))?' "$report_due"
no_report 'spaces at the end' '(report 4 1 (sees 2)) \n' 22 'spaces at the end of the line' '(report 4 1 (sees 2)) ' "$report_due"
no_report 'spaces at the start' ' (report 4 1 (sees 2))\n' 1 'spaces at the start of the line' ' (report 4 1 (sees 2))' "$report_due"
no_report 'a blank line' '\n(report 4 1 (sees 2))\n' 1 'a blank line' '' "$report_due"
no_report 'a comment' '# relay 4\n' 1 'a report has no comments; delete the line' '# relay 4' "$report_due"
no_report 'quoted mail' '> (report 4 1 (sees 2))\n' 1 'a mark of quoted mail; take it off every line' '> (report 4 1 (sees 2))' "$report_due"
no_report 'two reports in a line' '(report 4 1 (sees 2)) (report 5 1 (sees 2))\n' 22 'two reports in a line; each has a line of its own' '(report 4 1 (sees 2)) (report 5 1 (sees 2))' "$report_due"
no_report 'no line end' '(report 4 1 (sees 2))' 22 'the line end is missing; press Enter after the report and save' '(report 4 1 (sees 2))' "$report_due"
no_report 'a line cut off' '(report 4 1 (se' 16 'the file ends in the middle of a line' '(report 4 1 (se' "$report_due"
no_second 'a second report' '(report 4 2 (sees 2))\n' 'a second report stands after the first; each of the two goes into a file of its own' '(report 4 2 (sees 2))'
no_second 'more after a report' 'Regards\n' 'something stands after the report' 'Regards'
no_second 'a blank line after a report' '\n' 'a blank line' ''
no_report 'a byte-order mark' '\xef\xbb\xbf(report 4 1 (sees 2))\n' 1 'the file begins with a byte-order mark; save it without one' '???(report 4 1 (sees 2))' "$report_due" 'a set'
no_report 'UTF-16' '\xff\xfe(\0r\0' 1 'the file is in UTF-16; save it as plain text (ASCII or UTF-8)' '??(?r?' "$report_due" 'a set'
no_report 'a compressed file' '\x1f\x8b\x08\0more' 1 'the file is compressed; unpack it first (gunzip, bunzip2, unxz, unzstd or unzip)' '????more' "$report_due" 'a set'
no_report 'a network file' "$mesh" 2 'this is a network file, not a report' '(net (relays 5) (links 7))' "$report_due" 'a set of reports'
no_report 'a refusal' '(refused 19 0)\n' 4 'this is a refusal, not a report' '(refused 19 0)' "$report_due" 'a set of reports'
no_report 'a drawing' 'p edge 5 7\n' 1 'this is a drawing, not a report' 'p edge 5 7' "$report_due" 'a set of reports'
: >"$work/a.report"
neither 'an empty file' 1 1 'the file is empty' '' "$report_due"
ask "$copy/nolkisei" stands a.report a.report
says 'both are empty' 1 'nolkisei: refused (19): a.report, line 1, column 1: the file is empty'

# stood WHAT FIRST SECOND LINE WORDS: two reports, the one that stands, and the words.
stood() {
    printf '%b' "$2" >"$work/a.report"
    printf '%b' "$3" >"$work/b.report"
    ask "$copy/nolkisei" stands a.report b.report
    same "$1: the report" "$(printf '%b' "$4")"$'\nstatus 0' "$output"
    same "$1" "nolkisei: $5" "$words"
}

# unstood WHAT FIRST SECOND NUMBER WORDS: two reports of which none stands.
unstood() {
    printf '%b' "$2" >"$work/a.report"
    printf '%b' "$3" >"$work/b.report"
    ask "$copy/nolkisei" stands a.report b.report
    same "$1: the refused line" "(refused $4 0)"$'\nstatus 1' "$output"
    same "$1" "nolkisei: refused ($4): a.report and b.report: $5" "$words"
}

first_stands='a.report: the first report stands: its serial'
second_stands='b.report: the second report stands: its serial'
apart='neither report of relay 4 comes after the other:'
newer='ask the site which one is newer'
stood 'a later serial' '(report 4 4 (sees 2))\n' "$good" "$good" "$second_stands 7 comes 3 after 4, that of the first (a.report)"
stood 'an earlier serial' "$good" '(report 4 4 (sees 2))\n' "$good" "$first_stands 7 comes 3 after 4, that of the second (b.report)"
stood 'around the end' '(report 4 4294967295 (sees 2))\n' '(report 4 3 (sees))\n' '(report 4 3 (sees))\n' "$second_stands 3 comes 4 after 4294967295, that of the first (a.report), since serials start again at 0"
stood 'around the end, the other way' '(report 4 0 (sees 2))\n' '(report 4 4294967295 (sees))\n' '(report 4 0 (sees 2))\n' "$first_stands 0 comes 1 after 4294967295, that of the second (b.report), since serials start again at 0"
stood 'one below half' '(report 4 0 (sees))\n' '(report 4 2147483647 (sees 2))\n' '(report 4 2147483647 (sees 2))\n' "$second_stands 2147483647 comes 2147483647 after 0, that of the first (a.report)"
stood 'one above half' '(report 4 0 (sees))\n' '(report 4 2147483649 (sees 2))\n' '(report 4 0 (sees))\n' "$first_stands 0 comes 2147483647 after 2147483649, that of the second (b.report), since serials start again at 0"
stood 'the same report' "$good" "$good" "$good" 'a.report: the first report stands: the second (b.report) is the same, byte for byte'
stood 'the longest report' "(report 999 4294967295 (sees$(printf ' %d' {0..998})))\n" '(report 999 4294967294 (sees))\n' "(report 999 4294967295 (sees$(printf ' %d' {0..998})))\n" \
    "$first_stands 4294967295 comes 1 after 4294967294, that of the second (b.report)"
ask "$copy/nolkisei" stands good.report ./good.report
same 'one file' $'(report 4 7 (sees 2 3))\nstatus 0nolkisei: good.report: the first report stands: both names are those of one file' "$output$words"
ask "$copy/nolkisei" stands "$copy/networks/relay-4-old.report" "$copy/networks/relay-4-new.report"
same 'the reports of the guide' $'(report 4 3 (sees 2 3))\nstatus 0' "$output"
says 'the reports of the guide' 0 'the second report stands: its serial 3 comes 4 after 4294967295, that of the first ('
unstood 'two relays' "$good" '(report 12 7 (sees 2 3))\n' 20 'the first is a report of relay 4, the second one of relay 12; name two reports of one relay'
unstood 'half of all serials' '(report 4 2147483649 (sees))\n' '(report 4 1 (sees))\n' 21 "$apart the serials 2147483649 and 1 are 2147483648 apart, half of all serials; $newer"
unstood 'one serial on two reports' "$good" '(report 4 7 (sees 2))\n' 21 "$apart both have the serial 7, but they do not see the same neighbours; $newer"

# Pipes, folders and names.
made=$(cat "$mesh_file")$'\nstatus 0'
stands_line=$'(report 4 7 (sees 2 3))\nstatus 0'
printf '%b' "$whole" | tee "$work/-m.reports" "$work/two words.reports" >"$work/m.reports"
printf '(report 4 4 (sees 2))\n' | tee "$work/-old" "$work/an old one" >"$work/old.report"
for name in -m.reports 'two words.reports' ../work/m.reports "$work/m.reports"; do
    ask "$copy/nolkisei" reports 5 "$name"
    same "the set '$name'" "$made" "$output$words"
done
for name in -old 'an old one' ../work/old.report; do
    ask "$copy/nolkisei" stands "$name" good.report
    same "the report '$name'" "${stands_line}nolkisei: good.report: the second report stands: its serial 7 comes 3 after 4, that of the first ($name)" "$output$words"
done
CDPATH=/ ask env PATH="$copy:$PATH" nolkisei reports 5 m.reports
same 'reports, by its name alone' "$made" "$output$words"
for way in '- <m.reports' '/dev/stdin <m.reports' '<(cat m.reports)'; do
    ask bash -c "'$copy/nolkisei' reports 5 $way"
    same "a set by $way" "$made" "$output$words"
done
for way in '- good.report <old.report' 'old.report - <good.report' '<(cat old.report) good.report' '<(cat old.report) <(cat good.report)'; do
    ask bash -c "'$copy/nolkisei' stands $way"
    same "two reports by $way" "$stands_line" "$output"
    says "two reports by $way" 0 ': the second report stands: its serial 7 comes 3 after 4, that of the first ('
done
ask bash -c "'$copy/nolkisei' stands - - <good.report"
says 'standard input for both reports' 2 'nolkisei: standard input can be one of the two files, not both'
ask bash -c "printf '(report 4 1 (sees 2)' | '$copy/nolkisei' stands good.report -"
says 'words about a report through a pipe' 1 'nolkisei: refused (19): standard input, line 1, column 21: the file ends in the middle of a line'
printf '(report 0 1 (sees))\n(report 1 1 (sees 1))\n' >"$work/two words.reports"
ask "$copy/nolkisei" reports 5 'two words.reports'
says 'words about a name with a space' 1 'nolkisei: refused (19): two words.reports, line 2, column 19: relay 1 is among those it sees'
ask bash -c "'$copy/nolkisei' reports 5 m.reports >new.net && cat new.net"
same 'a network in a file' "$made" "$output$words"
for command in 'reports 5 m.reports' "reports 5 '$copy/networks/mesh.reports'" 'reports 9 m.reports' 'reports 2 m.reports' 'reports 5 good.report' 'stands old.report good.report' 'stands a.report b.report'; do
    ask bash -c "'$copy/nolkisei' $command"
    due=$output
    for way in '2>&-' '2>/dev/null'; do
        ask bash -c "'$copy/nolkisei' $command $way"
        same "$command $way" "$due" "$output$words"
    done
done

# Without awk: a network and a report come all the same, and it is said what cannot be told.
mkdir -p "$room/no-awk" && for tool in bash env cat find cmp od tr tail wc; do ln -sf "$(type -P $tool)" "$room/no-awk/$tool"; done
for command in "reports 5 '$copy/networks/mesh.reports':0:mesh.reports: it takes awk to tell which links only one end sees, and it could not be run" \
    "reports 4 m.reports:1:nolkisei: refused (5): m.reports: docs/DESK.md, 'Refusals', tells what that means" \
    "reports 5 'two words.reports':1:nolkisei: refused (19): two words.reports: docs/DESK.md, 'Refusals', tells what that means" \
    "stands old.report good.report:0:good.report: the second report stands: its serial 7 comes 3 after 4" \
    "stands old.report m.reports:1:nolkisei: refused (19): m.reports: docs/DESK.md, 'Refusals', tells what that means"; do
    ask env PATH="$room/no-awk" bash -c "'$copy/nolkisei' ${command%%:*}"
    command=${command#*:}
    says "no awk: ${command#*:}" "${command%%:*}" "${command#*:}"
done

# Sets as long as they may be, and longer: the words come all the same.
awk 'BEGIN { for (a = 0; a < 1000; a++) { s = "(report " a " 4294967295 (sees"; for (b = 0; b < 1000; b++) if (b != a) s = s " " b; print s "))" } }' >"$work/all.reports"
ask "$copy/nolkisei" reports 1000 all.reports
same 'the longest set' $'(refused 4 0)\nstatus 1nolkisei: refused (4): all.reports: the set makes 499500 links, and 3,000 are the most. Pass the set on to the network planners' "$output$words"
sed '1000s/ 998))/ 997))/' "$work/all.reports" >"$work/long.reports"
ask "$copy/nolkisei" reports 1000 long.reports
same 'the longest set, its last line wrong' $'(refused 19 0)\nstatus 1' "$output"
says 'the longest set, its last line wrong' 1 $'nolkisei: refused (19): long.reports, line 1000, column 3912: neighbour 997 is not above the one before it, 997; neighbours stand in rising order, each once\n    ...'
{ cat "$work/all.reports" && echo '(report 0 1 (sees))'; } >"$work/long.reports"
for file in long.reports /dev/zero; do
    ask "$copy/nolkisei" reports 1000 $file
    same "a set that is too long, $file" $'status 2nolkisei: '"$file has more than 3,917,000 bytes, and a set of reports has at most so many" "$output$words"
done
ask "$copy/nolkisei" stands all.reports good.report
same 'a report that is too long' $'status 2nolkisei: all.reports and good.report have more than 1,000,000 bytes together, and at most so many are read' "$output$words"
head -c 900000 "$work/all.reports" >"$work/long.reports"
ask "$copy/nolkisei" stands good.report long.reports
says 'a set for a report' 1 'nolkisei: refused (19): long.reports, line 2, column 1: a second report stands after the first; each of the two goes into a file of its own'
ask "$copy/nolkisei" stands long.reports good.report
says 'a set for the first report' 1 'nolkisei: refused (19): long.reports, line 2, column 1: a second report stands after the first'
rm "$work/all.reports" "$work/long.reports"

# Reports for a network file or a drawing.
ask "$copy/nolkisei" plan 4 1 1 m.reports
same 'plan, a set of reports: the line' $'(refused 2 1)\nstatus 1' "$output"
says 'plan, a set of reports' 1 "nolkisei: refused (2): m.reports, line 1, column 2: this looks like a set of link reports; make a network file of it first, with the number of relays for N: $copy/nolkisei reports N m.reports > NEW.net"
ask "$copy/nolkisei" import m.reports
says 'import, a set of reports' 1 'nolkisei: refused (18): m.reports, line 1, column 1: this is a set of reports, not a drawing'

# Files and programs that are no good.
for arguments in reports 'reports m.reports' 'reports 5 m.reports b.reports' stands 'stands good.report' 'stands a b c'; do
    # shellcheck disable=SC2086
    ask "$copy/nolkisei" $arguments
    says "the arguments '$arguments'" 2 "nolkisei: usage: nolkisei ${arguments%% *}"
done
for command in 'reports 5 none:there is no file none' 'stands none good.report:there is no file none' 'stands good.report none:there is no file none' \
    'reports 5 .:. is a folder, not a set of reports' 'stands . good.report:. is a folder, not a report' 'stands good.report .:. is a folder, not a second report' \
    'reports 5 /proc/self/mem:/proc/self/mem cannot be read to its end' 'stands good.report /proc/self/mem:/proc/self/mem cannot be read to its end'; do
    # shellcheck disable=SC2086
    ask "$copy/nolkisei" ${command%%:*}
    says "${command%%:*}" 2 "nolkisei: ${command#*:}"
done
ask bash -c "'$copy/nolkisei' reports 5 m.reports >>m.reports"
says 'reports, output to the file that is read' 2 'nolkisei: standard output goes to m.reports, the file that is to be read; nothing was written'
for command in 'reports 5 m.reports' 'stands old.report good.report'; do
    ask bash -c "'$copy/nolkisei' $command >/dev/full"
    says "$command, nowhere to write" 2 'could not be written to standard output'
done
for part in 'exit 3: could not be run to its end' 'echo "(net (relays 5) (links 0))": not whole' 'echo "(net (relays 4) (links 0))"; echo "(end)": not whole' 'echo "(refused 19": not whole' ': : gave no answer'; do
    instead reporter "${part%: *}" "${part##*: }" "$copy/nolkisei" reports 5 m.reports
done
for part in 'exit 3: could not be run to its end' 'echo "(report 4 7 (sees 2))": not whole' 'printf "(report 4 7 (sees 2 3))": not whole' 'echo: not whole' ': : gave no answer'; do
    instead stander "${part%: *}" "${part##*: }" "$copy/nolkisei" stands old.report good.report
done
restore reporter
restore stander
rm "$work/-m.reports" "$work/-old"
