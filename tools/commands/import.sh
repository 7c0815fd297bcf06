# import FILE
# Prints the network of a drawing in the public DIMACS edge form as a network file.
#
#     nolkisei import networks/mesh.col > mesh.net
#
# FILE is a drawing, or - for standard input. docs/DESK.md says what such a drawing has, and what to do with other files.
# Ends with status 0 after a network, 1 after a refusal, which is said in words beside it, and 2 where there was nothing to ask.

[ $# -eq 1 ] || wrong_use
take "$1" drawing
too_long="$name has more than 1,000,000 bytes, and a drawing has at most so many"
answer '' "$path"
case $output in '(net (relays '*$'\n(end)\n') pass_on && exit 0 ;; esac
turn_away drawing
