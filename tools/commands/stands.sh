# stands FIRST SECOND
# Prints the one of two link reports of a relay that stands, which is the newer one by its serial.
#
#     nolkisei stands networks/relay-4-old.report networks/relay-4-new.report
#
# Each file has one report. One of the two may be - for standard input. Why the report stands is said in words beside it.
# Ends with status 0 after a report, 1 after a refusal, which is said in words beside it, and 2 where there was nothing to ask.

# report FILE: leaves the line, the relay and the serial of a file that is a report as it may be.
report() {
    IFS= read -r line <"$1" && [[ $line =~ ^'(report '([0-9]+)' '([0-9]+)' ' ]] && relay=${BASH_REMATCH[1]} serial=${BASH_REMATCH[2]}
}

# both: leaves these of the first file in one, relay_one and serial_one, and those of the second in line, relay and serial.
both() {
    report "$first" && one=$line relay_one=$relay serial_one=$serial && report "$second"
}

# standing: whether the program wrote one of the two reports.
standing() {
    [[ $output == '(report '* ]] && both && { [ "$output" = "$one"$'\n' ] || [ "$output" = "$line"$'\n' ]; }
}

# newer NAME WHICH SERIAL OTHER_NAME OTHER OTHER_SERIAL: says why a report stands whose serial comes after the other's.
newer() {
    local again=''
    [ "$3" -gt "$6" ] || again=', since serials start again at 0'
    say "$1: the $2 report stands: its serial $3 comes $((($3 - $6) & 0xffffffff)) after $6, that of the $5 ($4)$again"
}

# same: says why the first stands where both are the same.
same() {
    local why="the second ($second_name) is the same, byte for byte"
    [ ! "$first" -ef "$second" ] || why='both names are those of one file'
    say "$first_name: the first report stands: $why"
}

# wrong_one: where and why one of the two is no report as it may be: the first, unless the program takes it beside itself.
wrong_one() {
    ask "$border" "$first" "$first"
    case $output in '(report '*) ;; *) path=$first name=$first_name typed_file=$first_typed ;; esac
    alone=yes limit=5000 words 19 0 "$path" -f "$here/tools/lines.awk" -f "$here/tools/explain-reports.awk"
}

# why NUMBER: a refusal in words.
why() {
    local two="refused ($1): $first_name and $second_name:"
    case $1 in
    19) wrong_one ;;
    20) both && say "$two the first is a report of relay $relay_one, the second one of relay $relay; name two reports of one relay" ;;
    21)
        both && two+=" neither report of relay $relay comes after the other:"
        if [ "$serial" = "$serial_one" ]; then
            say "$two both have the serial $serial, but they do not see the same neighbours; ask the site which one is newer"
        else
            say "$two the serials $serial_one and $serial are 2147483648 apart, half of all serials; ask the site which one is newer"
        fi
        ;;
    *) say "$two docs/DESK.md, 'Refusals', tells what that means" ;;
    esac
}

[ $# -eq 2 ] || wrong_use
[ "$1 $2" != '- -' ] || fail 'standard input can be one of the two files, not both'
take "$1" report
first=$path first_name=$name first_typed=$typed_file
take "$2" 'second report'
second=$path second_name=$name
too_long="$first_name and $second_name have more than 1,000,000 bytes together, and at most so many are read"
look "$program"
size=$(wc -c 2>/dev/null <"$first") || fail "$first_name cannot be counted"
[ "$size" -le "$limit" ] || fail "$too_long"
border="(stands $((size / 10000)) $((size % 10000)))"
answer "$border" "$first" "$second"
if ! standing; then
    . "$here/tools/refusals.sh"
    refusal
    pass_on
    why "${refused% *}"
    exit 1
fi
pass_on
if [ "$one" = "$line" ]; then
    same
elif [ "$output" = "$one"$'\n' ]; then
    newer "$first_name" first "$serial_one" "$second_name" second "$serial"
else
    newer "$second_name" second "$serial" "$first_name" first "$serial_one"
fi
exit 0
