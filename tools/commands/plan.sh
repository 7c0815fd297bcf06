# plan FROM TO K FILE
# Prints a sheet of K routes from relay FROM to relay TO that share no relay but these two, in the network of FILE.
#
#     nolkisei plan 4 1 2 networks/mesh.net
#
# K is 1 to 32. FILE is a network file, or - for standard input. docs/DESK.md says how to read a sheet.
# Ends with status 0 after a sheet, 1 after a refusal, which is said in words beside it, and 2 where there was nothing to ask.

# greatest K: the greatest number of routes below K for which there is a sheet, 0 where there is none. Two relays in one tree of a
# forest are in one tree of each earlier one, so half of what is left is ruled out at each turn.
greatest() {
    local low=0 high=$1 half
    while [ $((high - low)) -gt 1 ]; do
        half=$(((low + high) / 2))
        ask "(want $from $to $half)" "$path"
        case $output in '(sheet '*) low=$half ;; *) high=$half ;; esac
    done
    echo "$low"
}

[ $# -eq 4 ] || wrong_use
number FROM "$1"
number TO "$2"
number K "$3"
take "$4" 'network file'
from=$1 to=$2
answer "(want $1 $2 $3)" "$path"
case $output in
"(sheet (from $1) (to $2) (k $3))"$'\n'*$'\n(end)\n') pass_on && exit 0 ;;
'(refused 13 0)'$'\n') greatest=$(greatest "$3") && export greatest ;;
esac
turn_away 'network file'
