# For the commands, after a refusal: saying in words what it means and where to look.

# The script of tools/ that says what a refusal means, for each kind of file.
declare -gA script=(['network file']=explain.awk [sheet]=explain-sheet.awk [drawing]=explain-drawing.awk)

# Why a typed value is not a number of one to four digits; nothing where it is one.
why_no_number() {
    case $1 in
    '') echo 'it is empty' ;;
    *[!0123456789]*) echo 'it has something other than digits in it' ;;
    0?*) echo 'it has a zero in front' ;;
    ?????*) echo 'it has more than four digits' ;;
    esac
}

# refusal: leaves number and place of the refused line that the program wrote; fails where it wrote something else.
refusal() {
    case $output in
    '(refused '*' '*')'$'\n') ;;
    *) fail "$name: what the $program wrote is not whole" ;;
    esac
    refused=${output#'(refused '} refused=${refused%')'*}
}

# explain NUMBER PLACE KIND: a refusal that is about a wish or about the file of a kind that was taken, in words.
explain() {
    local i why
    if [ "$1" = 1 ]; then
        for ((i = 0; i < ${#numbers[@]}; i += 2)); do
            why=$(why_no_number "${numbers[i + 1]}")
            [ -z "$why" ] || {
                safe "${numbers[i + 1]}"
                say "refused (1): $name: ${numbers[i]} is '$safe': $why; a number has one to four digits and no zero in front"
            }
        done
        return
    fi
    words "$1" "$2" "$path" -f "$here/tools/lines.awk" -f "$here/tools/${script[$3]}"
}

# words NUMBER PLACE FILE SCRIPT..: what the scripts say of the bytes of a file, or where it is told if they cannot be run.
words() {
    local number=$1 place=$2 bytes=$3 said
    shift 3
    said=$({ od -An -v -tu1 -N "$limit" <"$bytes" | number=$number place=$place file=$name typed_file=$typed_file me=$(me) command=$command LC_ALL=C awk "$@"; } 2>/dev/null) && [ -n "$said" ] ||
        said="nolkisei: refused ($number): $name: docs/DESK.md, 'Refusals', tells what that means (it takes awk and od to tell it here, and they could not be run)"
    printf '%s\n' "$said" >&2
}
