# keep K FILE
# Prints which links of the network of FILE are worth keeping for K routes, link by link.
#
#     nolkisei keep 1 networks/mesh.net
#
# K is 1 to 32. FILE is a network file, or - for standard input. docs/DESK.md says how to read the list.
# Ends with status 0 after a list, 1 after a refusal, which is said in words beside it, and 2 where there was nothing to ask.

[ $# -eq 2 ] || wrong_use
number K "$1"
take "$2" 'network file'
answer "(keep $1)" "$path"
case $output in "(lease (k $1))"$'\n'*$'\n(end)\n') pass_on && exit 0 ;; esac
turn_away 'network file'
