# For the commands: whether no file of a program has changed since its sums last agreed (tools/sums.sh). Beside the program stands
# PROGRAM.listing: its first line names the sources of the program, and the others are these files and the program as they were then.

# files PROGRAM ACTION..: find over the sources, and the program where one is named, with what is to be done with each file. Edits that
# must fail and what the kit leaves in a crate's folder are no sources. To be called where a shell of its own is at hand.
files() {
    local own=${1:+target/bin/$1}
    shift
    cd -- "$here" 2>/dev/null && LC_ALL=C exec find -L ${own:+"$own"} "${sources[@]}" -regex 'crates/[^/]*/\(must-fail\|out\)' -prune -o -type f "$@" 2>/dev/null
}

# listing [PROGRAM]: the sources by name, and of each of these files what changes whenever the file does.
listing() {
    echo "${sources[*]}"
    files "${1:-}" -printf '%C@ %i %s %p\n'
}

# look PROGRAM: begins to compare its files with the listing, beside what comes next. The listing says which sources these are, and it
# has crates.txt, which told so, among them.
look() {
    local kept=$here/target/bin/$1.listing
    looking=''
    { read -r -a sources <"$kept"; } 2>/dev/null && [ -x "$here/target/bin/$1" ] || return
    listing "$1" | LC_ALL=C cmp -s - "$kept" &
    looking=$!
}

# unchanged: whether the last look found the files as they are in the listing.
unchanged() {
    [ -n "$looking" ] && wait "$looking"
}
