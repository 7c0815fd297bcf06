# verify NETWORK SHEET
# Prints whether the sheet in the file SHEET holds for the network in the file NETWORK, whoever made it.
#
#     nolkisei verify networks/mesh.net networks/mesh.sheet
#
# One of the two may be - for standard input. Together they have at most 1,000,000 bytes.
# Ends with status 0 where the sheet holds, 1 where it fails or is refused, which is said in words beside it, and 2 where there was
# nothing to ask.

# fault NUMBER: what is wrong first with a sheet that fails, or the k of one that is refused with 15. Where it is the count of kept
# links, the keeper tells the right one.
fault() {
    local k right=''
    k=$(faulty "$1" "$network" "$sheet")
    if [ $? -eq 3 ]; then
        right=$(program=keeper && ready keeper && ask "(keep $k)" "$network" && [[ $output =~ \(kept\ ([0-9]+)\) ]] && echo "${BASH_REMATCH[1]}")
        faulty "$1" "$network" "$sheet" "${right:-unknown}"
    else
        printf '%s\n' "$k"
    fi >&2
}

# faulty NUMBER NETWORK SHEET [RIGHT]: the words of the script; RIGHT is the right count of kept links where that is known to matter.
faulty() {
    cat -- "$2" "$3" | number=$1 right=${4:-} network=$network_name network_typed=$network_typed sheet=$sheet_name me=$(me) LC_ALL=C \
        awk -f "$here/tools/explain-fault.awk"
}

# why NUMBER PLACE: a refusal in words, or for the number 0 what is wrong with a sheet that fails.
why() {
    case $1 in
    14) explain "$1" "$2" sheet ;;
    0 | 15) fault "$1" ;;
    *)
        path=$network name=$network_name typed_file=$network_typed
        explain "$1" "$2" 'network file'
        ;;
    esac
}

# count FILE NAME: leaves in size how many bytes it has.
count() {
    local LC_ALL=C text
    if in_hand "$1"; then
        size=${#text}
    else
        size=$(wc -c 2>/dev/null <"$1") || fail "$2 cannot be counted"
    fi
}

[ $# -eq 2 ] || wrong_use
[ "$1 $2" != '- -' ] || fail 'standard input can be one of the two files, not both'
take "$1" 'network file'
network=$path network_name=$name network_typed=$typed_file
take "$2" sheet
sheet=$path sheet_name=$name
too_long="$network_name and $sheet_name have more than 1,000,000 bytes together, and at most so many are read"
look "$program"
count "$network" "$network_name"
[ "$size" -le "$limit" ] || fail "$too_long"
answer "(verify $((size / 10000)) $((size % 10000)))" "$network" "$sheet"
case $output in '(holds)'$'\n') pass_on && exit 0 ;; esac
. "$here/tools/refusals.sh"
case $output in '(fails)'$'\n') refused='0 0' ;; *) refusal ;; esac
pass_on
why "${refused% *}" "${refused#* }"
exit 1
