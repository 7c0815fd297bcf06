# reports N FILE
# Prints the network that the link reports in FILE make for N relays, as a network file.
#
#     nolkisei reports 5 networks/mesh.reports > mesh.net
#
# N is 1 to 1,000. FILE is a set of reports, each a line and at most one for a relay, or - for standard input. docs/DESK.md says what a
# report is. Links that only one end sees, and relays without a report, are counted in words beside the network.
# Ends with status 0 after a network, 1 after a refusal, which is said in words beside it, and 2 where there was nothing to ask.

# of_set NUMBER: what the script says of a set whose lines are all reports.
of_set() {
    number=$1 file=$name LC_ALL=C awk -f "$here/tools/explain-set.awk" <"$path" 2>/dev/null
}

# why NUMBER PLACE: a refusal in words.
why() {
    local before
    case $1 in
    1) explain "$1" "$2" ;;
    3) say "refused (3): $name: N is $typed_N; a network has 1 to 1,000 relays" ;;
    19)
        before=$(tr '\000' '\001' <"$path" | LC_ALL=C awk -f "$here/tools/wrong-report.awk") 2>/dev/null
        lines_before=${before% *} limit=5000 words 19 0 <(tail -c "+$((${before#* } + 1))" <"$path" 2>/dev/null) \
            -f "$here/tools/lines.awk" -f "$here/tools/explain-reports.awk"
        ;;
    *) typed_file=$typed_file me=$(me) of_set "$1" >&2 || say "refused ($1): $name: docs/DESK.md, 'Refusals', tells what that means" ;;
    esac
}

[ $# -eq 2 ] || wrong_use
limit=3917015
number N "$1"
take "$2" 'set of reports'
too_long="$name has more than 3,917,000 bytes, and a set of reports has at most so many"
answer "(reports $1)" "$path"
case $output in
"(net (relays $1) (links "*$'\n(end)\n')
    pass_on
    [ /dev/stderr -ef /dev/null ] || of_set 0 >&2 || say "$name: it takes awk to tell which links only one end sees, and it could not be run"
    exit 0
    ;;
esac
. "$here/tools/refusals.sh"
refusal
pass_on
why "${refused% *}" "${refused#* }"
exit 1
