# For the commands: saying a line of words on standard error, names as they are shown and as they are typed, and the help of a command.

say() {
    printf 'nolkisei: %s\n' "$1" >&2
}

fail() {
    say "$1"
    exit 2
}

# safe NAME: leaves in safe the name fit for a terminal. Where it is long it is cut in front, since its end tells files apart.
safe() {
    safe=${1//[^[:print:]]/?}
    [ ${#safe} -le 60 ] || safe=...${safe: -57}
}

# typed NAME: leaves in typed the name as it can be typed in a shell.
typed() {
    case $1 in
    '') typed="''" ;;
    *[![:print:]]*) printf -v typed '%q' "$1" ;;
    *[!A-Za-z0-9_./+,:@%=-]*) typed="'${1//\'/\'\\\'\'}'" ;;
    *) typed=$1 ;;
    esac
}

# This command as it can be typed in the folder that the person is in.
me() {
    case $0 in */*) typed "$0" ;; *) typed "./$0" ;; esac
    [ "$(type -P nolkisei)" != "$0" ] || typed=nolkisei
    echo "$typed"
}

# several NUMBER THING: leaves in several so many of a thing.
several() {
    several="$1 $2"
    [ "$1" -eq 1 ] || several+=s
}

# usage COMMAND: how a command is called, the first line of its file.
usage() {
    local line
    IFS= read -r line <"$here/tools/commands/$1.sh"
    echo "nolkisei ${line#'# '}"
}

wrong_use() {
    fail "usage: $(usage "$command") ($(me) help $command tells more)"
}

# wrong_command [NAME]: no command, or none of this name.
wrong_command() {
    safe "${1:-}"
    [ $# -eq 0 ] || set -- "there is no command $safe"
    fail "${1:-no command was given}; the commands are ${commands[*]} ($(me) help tells more)"
}

# reason FILE: why nothing can be written to a file, in the system's words.
reason() {
    local words
    words=$(LC_ALL=C; { printf '%s' "${filler:-x}" >"$1"; } 2>&1)
    rm -f -- "$1" 2>/dev/null
    printf '%s' "${words##*: }"
}

# unwritable FOLDER REASON: a folder that takes no file, said as what it is.
unwritable() {
    safe "$1"
    case $2 in
    *'No space left'*) echo "the disk is full: nothing more can be written to $safe" ;;
    *'quota exceeded'*) echo "your share of the disk is used up: nothing more can be written to $safe" ;;
    *'Read-only'*) echo "the folder $safe is on a disk that is read-only" ;;
    *'Permission denied'*) echo "you may not write to the folder $safe" ;;
    *) echo "nothing can be written to $safe${2:+ ($2)}" ;;
    esac
}
