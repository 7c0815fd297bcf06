# help [COMMAND]
# Says what each command is for, or all about one.
#
#     nolkisei help plan

[ $# -le 1 ] || wrong_use
if [ $# -eq 1 ]; then
    case " ${commands[*]} " in *" $1 "*) ;; *) wrong_command "$1" ;; esac
    while IFS= read -r line && [[ $line == '#'* ]]; do
        line=${line#'#'} line=${line#' '}
        case $line in "$1"*) [ -n "${begun:-}" ] || line="nolkisei $line" ;; esac
        begun=yes
        printf '%s\n' "$line"
    done <"$here/tools/commands/$1.sh"
    exit 0
fi
echo "$version"
echo
for command in "${commands[@]}"; do
    { read -r _ line && read -r _ about; } <"$here/tools/commands/$command.sh"
    printf '  nolkisei %-20s %s\n' "$line" "$about"
done
echo
echo "FILE may be - for standard input. docs/DESK.md is the guide for the desk; nolkisei help COMMAND tells more."
