# build
# Proves and builds all programs ahead, so that no question has to wait for it.
#
#     nolkisei build
#
# It says which crate of how many is done, and every 20 seconds how long it has been at work. What is built already from the sources
# as they are is left. Ends with status 0 when all are built, and 2 where that could not be done.

[ $# -eq 0 ] || wrong_use
. "$here/tools/building.sh"
all=()
for command in "${commands[@]}"; do
    [ -z "${program_of[$command]:-}" ] || all+=("${program_of[$command]}")
done
stale "${all[@]}"
[ ${#stale[@]} -eq 0 ] || build "${all[@]}"
say "all ${#all[@]} programs are built from the sources as they are"
