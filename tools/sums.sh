# For the commands: whether a program is the one that was built from the sources as they are now. Beside PROGRAM stands PROGRAM.sums, the
# sum of the sources it was built from and its own. While the listing of these files is the same (tools/fresh.sh) no file has changed
# since the sums last agreed; where it is another, or none, the sums are compared again.

# of_line LINE: leaves in name the crate of a line of crates.txt, which is its first word, and in needed what it needs. Fails where the
# line has none.
of_line() {
    local line=${1%%#*}
    name=${line%%:*} needed=${line#*:}
    [ "$name" != "$line" ] || return
    name=${name#"${name%%[![:blank:]]*}"} name=${name%%[[:blank:]]*}
    [ -n "$name" ]
}

# sources PROGRAM: leaves in sources the folders of the program's crates by crates.txt. Fails where they cannot be told.
sources() {
    local line name needed i
    local -A needs=()
    sources=()
    while IFS= read -r line || [ -n "$line" ]; do
        of_line "$line" && needs[$name]=$needed
    done 2>/dev/null <"$here/crates.txt"
    [ -n "${needs[$1]+listed}" ] || return 1
    crates=("$1")
    for ((i = 0; i < ${#crates[@]}; i++)); do
        for name in ${needs[${crates[i]}]}; do
            [ -n "${needs[$name]+listed}" ] || continue
            case " ${crates[*]} " in *" $name "*) ;; *) crates+=("$name") ;; esac
        done
    done
    sources=(crates.txt "${crates[@]/#/crates/}")
}

# The sum of the sources: names and bytes, in the order of the names.
sources_sum() {
    (set -o pipefail && files '' -print0 | LC_ALL=C sort -z | (cd -- "$here" && exec xargs -0 sha256sum) | sha256sum) 2>/dev/null
}

# both_sums PROGRAM SOURCES: what the first line of the record is to have, by the sum of the sources.
both_sums() {
    local own
    own=$(sha256sum <"$here/target/bin/$1") 2>/dev/null && [ -n "$2" ] && echo "${2%% *} ${own%% *}"
}

# replace FILE TEXT [TEST ..]: a file of target/bin as a whole, if it passes the test; as it was where nothing can be written.
replace() {
    local new=$1.$$
    { printf '%s\n' "$2" >"$new" && { [ $# -eq 2 ] || "${@:3}" "$new"; } && mv -f -- "$new" "$1" || rm -f -- "$new"; } 2>/dev/null
}

# keeps_times FILE: whether the disk of a file just written keeps the time of its last change when its date is set back.
keeps_times() {
    touch -d '2000-01-01' -- "$1" && [ -n "$(find "$1" -newerct "@$((taken_at - 2))")" ]
}

# agree PROGRAM: whether the sums are those that it was built with. The listing from before they were taken is kept, unless one of its
# files changed less than two seconds earlier, when a change right after it could have the same time.
agree() {
    local taken_at now='' due='' sums young listing=$here/target/bin/$1.listing
    printf -v taken_at '%(%s)T' -1
    [ -x "$here/target/bin/$1" ] && sources "$1" && now=$(listing "$1") && { IFS= read -r due <"$here/target/bin/$1.sums"; } 2>/dev/null
    [ -n "$due" ] && sums=$(both_sums "$1" "$(sources_sum)") && [ "$sums" = "$due" ] || return 1
    young=$(files "$1" -newerct "@$((taken_at - 2))" -print -quit) && [ -z "$young" ] && replace "$listing" "$now" keeps_times
    return 0
}

# fresh PROGRAM: whether it is there and built from its sources as they are now; not where that cannot be told.
fresh() {
    look "$1"
    unchanged || agree "$1"
}
