# sure FILE
# Prints one sure figure for the network of FILE: a sheet with all the routes that there are between the last two relays of its order.
#
#     nolkisei sure networks/mesh.net
#
# FILE is a network file, or - for standard input. How many routes these are, and why there are no more, is said in words beside it.
# Ends with status 0 after a sheet, 1 after a refusal or where there is no sheet to print, and 2 where there was nothing to ask.

[ $# -eq 1 ] || wrong_use
take "$1" 'network file'
answer '' "$path"
case $output in
'(sheet (from '*$'\n(end)\n')
    [[ $output =~ ^'(sheet (from '([0-9]+)') (to '([0-9]+)') (k '([0-9]+)'))'$'\n' ]] || turn_away 'network file'
    ends=0
    ;;
'(none (from '*$'\n')
    [[ $output =~ ^'(none (from '([0-9]+)') (to '([0-9]+)') (links '([0-9]+)'))'$'\n'$ ]] || turn_away 'network file'
    ends=1
    ;;
'(none (serving '*$'\n')
    pass_on
    say "$name: fewer than two relays are in service, so there are no two to count routes between"
    exit 1
    ;;
*) turn_away 'network file' ;;
esac
pass_on
last=${BASH_REMATCH[1]} figure=${BASH_REMATCH[3]}
two="$name: relays $last and ${BASH_REMATCH[2]}, the last two of the order, have"
several "$figure" link
why="relay $last has $several to relays in service"
several "$figure" route
case "$ends $figure" in
0*) say "$two exactly $several, and no planner finds more: $why" ;;
'1 0') say "$two no route: $why" ;;
1*) say "$two at most $figure routes, since $why; a sheet has at most 32" ;;
esac
exit "$ends"
