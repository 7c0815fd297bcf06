# For the commands: taking in the files of a question, running the proved program on them, and passing on what it writes.
. "$here/tools/fresh.sh"
limit=1000000
numbers=()

# number NAME VALUE: a number as it was typed. The program judges it; but a line end in it would begin another line of the
# program's input.
number() {
    case $2 in *$'\n'*) fail "$1 has a line end in it; it is to be a plain number" ;; esac
    numbers+=("$1" "$2")
    export "typed_$1=$2"
}

# spool NAME KIND [FILE]: keeps what can be read only once, standard input or a file, in a file of our own, which goes when this run
# ends.
spool() {
    local words
    if [ -z "${spooled:-}" ]; then
        spooled=$(mktemp -d 2>/dev/null) || fail "$(unwritable "${TMPDIR:-/tmp}" "$(reason "${TMPDIR:-/tmp}/nolkisei.$$")"), where $1 is to be kept"
        trap 'rm -rf -- "$spooled"' EXIT
    fi
    path=$spooled/$2
    words=$(LC_ALL=C; { [ $# -eq 2 ] || exec <"$3"; head -c $((limit + 1)) >"$path"; } 2>&1) && return
    case $words in
    *[Ww]rit* | *'No space'*) fail "$(unwritable "${TMPDIR:-/tmp}" "${words##*: }"), where $1 is to be kept" ;;
    *) fail "$1 cannot be read to its end" ;;
    esac
}

# take FILE KIND: a file of a kind that is to be read, or - for standard input. Leaves in path where its bytes are, in name what words
# call it, in typed_file how it is typed, and says what is wrong with one that cannot be read.
take() {
    safe "$1"
    name=$safe path=$1
    case $1 in
    -)
        name='standard input' path=/dev/stdin
        [ -z "${shut:-}" ] || fail 'standard input is closed, so there is nothing to read'
        ;;
    -*) path=./$1 ;;
    esac
    typed "$path"
    typed_file=$typed
    [ -e "$path" ] || { safe "$PWD" && fail "there is no file $name (looked for from $safe)"; }
    [ ! -d "$path" ] || fail "$name is a folder, not a $2"
    [ "$1" = - ] || [ -r "$path" ] || fail "the file $name may not be read by you"
    if [ -f "$path" ] && [ "$path" -ef /dev/stdout ]; then
        [ -s "$path" ] || fail "standard output goes to $name, the file that is to be read, and > has emptied it before this command began; name another file after >"
        fail "standard output goes to $name, the file that is to be read; nothing was written. Name another file after >"
    fi
    case $1 in
    -) typed_file=- && spool "$name" "$2" ;;
    *) [ -f "$path" ] || spool "$name" "$2" "$path" ;;
    esac
}

# answer LINE FILE..: runs the program on the line, unless it is empty, and the files one after the other; leaves what it writes in
# output. It is asked while its sources are looked at, and where these have changed since, what it wrote does not count.
answer() {
    [ -n "${looking+begun}" ] || look "$program"
    ask "$@"
    unchanged || { ready "$program" && ask "$@"; }
    readable "${ended% *}"
    [ "${ended#* }" = 0 ] && [ -n "$output" ] || no_answer "$@"
}

# ready PROGRAM: builds it where it is not fresh.
ready() {
    . "$here/tools/building.sh"
    fresh "$1" || build "$1"
}

# ask LINE FILE..: one run of the program; leaves what it writes in output, and in ended how the files and it ended. A file alone is its
# standard input, and then it writes nothing where that cannot be read.
ask() {
    local text own=$here/target/bin/$program
    { output=$(
        if [ -z "$1" ]; then
            "$own" <"$2"
            printf '\n0 %s' "$?"
        elif in_hand "${@:2}"; then
            "$own" <<<"$1"$'\n'"${text%$'\n'}"
            printf '\n0 %s' "$?"
        else
            input "$@" | "$own"
            printf '\n%s' "${PIPESTATUS[*]}"
        fi
    ); } 2>/dev/null
    ended=${output##*$'\n'} output=${output%$'\n'*}
}

# in_hand FILE..: leaves in text the bytes of the files, which takes no other process. Fails where there are more than fit into a pipe,
# where one is a byte 0, which a shell cannot hold, and where a file does not end with the line (end), as a network and a sheet do: there
# the read may have broken off.
in_hand() {
    local LC_ALL=C file bytes most=65000
    text=''
    for file; do
        bytes=''
        ! { IFS= read -r -d '' -n "$most" bytes <"$file"; } 2>/dev/null && [[ $bytes == *$'\n(end)\n' ]] || return 1
        text+=$bytes
    done
    [ ${#text} -le "$most" ]
}

# input LINE FILE..: what the program reads.
input() {
    [ -z "$1" ] || printf '%s\n' "$1"
    shift
    LC_ALL=C exec cat -- "$@"
}

# readable STATUS: fails where the files that were handed on with this status could not all be read. 141 is that of a pipe that nobody
# reads to its end.
readable() {
    case $1 in 0 | 141) ;; *) fail "$name cannot be read to its end" ;; esac
}

# no_answer LINE FILE..: why the program wrote nothing: its input cannot be read, or is longer than it reads, or it failed.
no_answer() {
    local size
    size=$(input "$@" 2>/dev/null | head -c $((limit + 1)) | wc -c; exit "${PIPESTATUS[0]}")
    readable $?
    [ "$size" -le "$limit" ] || fail "${too_long:-$name is too long}"
    [ "${ended#* }" = 0 ] || fail "$name: the $program could not be run to its end (status ${ended#* })"
    fail "$name: the $program gave no answer"
}

pass_on() {
    printf '%s' "$output" 2>/dev/null || fail "$name: the answer could not be written to standard output"
}

# turn_away KIND: passes on the refused line that the program wrote for the file of a kind that was taken, and says it in words. A file of
# the system's own may seem empty to a program that did not open it itself, so it is read once more first.
turn_away() {
    (input '' "$path") >/dev/null 2>&1
    readable $?
    . "$here/tools/refusals.sh"
    refusal
    pass_on
    explain "${refused% *}" "${refused#* }" "$1"
    exit 1
}
