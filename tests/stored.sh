# For the scripts beside it that run stored inputs: comparing what is due with what is written, and networks to ask about.
set -u
cd "$(dirname "${BASH_SOURCE[0]}")/.." || exit 1
here=. && . tools/kit.sh
tested=0
wrong=0

# same WHAT DUE WRITTEN, where line ends at the end count: both with a last '.'. What is set in what_for is said with it.
same() {
    set -- "$1${what_for:-}" "$2" "$3"
    tested=$((tested + 1))
    if [ "$2" != "$3" ]; then
        wrong=$((wrong + 1))
        printf '%s\n  due     %q\n  written %q\n' "$1" "${2:0:2000}" "${3:0:2000}" >&2
    fi
}

# try WHAT INPUT DUE: the program on an input, both with \n for line ends.
try() {
    same "$1" "$(printf '%b' "$3"; echo .)" "$(printf '%b' "$2" | "$program"; echo .)"
}

# finish NAME: says how many were tested, and fails where one was wrong.
finish() {
    echo "$1: $tested tested, $wrong wrong"
    [ "$wrong" -eq 0 ]
}

# In pieces of 1, 2, 3, 5, 8, .. bytes, each written by itself with a short pause before it.
in_pieces() {
    local piece size=1 next=2 sum
    while IFS= read -r -d '' -N "$size" piece || [ -n "$piece" ]; do
        sleep 0.003
        printf '%s' "$piece"
        sum=$((size + next)) size=$next next=$sum
    done
}

# The networks of document 01, and one of one link to be spoilt. Then networks whose order does not start at relay 0: of four relays
# it starts at 1, which alone has three links; of seven at 4, which has three as 5 has, goes on to 3, 5 and 6, and then to the other
# parts, 0 and 1 and then 2.
mesh='(net (relays 5) (links 7))\n(link 0 1)\n(link 0 2)\n(link 1 2)\n(link 1 3)\n(link 2 3)\n(link 2 4)\n(link 3 4)\n(end)\n'
square='(net (relays 4) (links 4))\n(link 0 1)\n(link 1 2)\n(link 2 3)\n(link 0 3)\n(end)\n'
four='(net (relays 4) (links 6))\n(link 0 1)\n(link 0 2)\n(link 0 3)\n(link 1 2)\n(link 1 3)\n(link 2 3)\n(end)\n'
one='(net (relays 5) (links 1))\n'
busy='(net (relays 4) (links 4))\n(link 0 1)\n(link 0 2)\n(link 1 2)\n(link 1 3)\n(end)\n'
parts='(net (relays 7) (links 6))\n(link 0 1)\n(link 3 4)\n(link 3 5)\n(link 4 5)\n(link 4 6)\n(link 5 6)\n(end)\n'

# without NETWORK RELAY..: one of these networks with relays withdrawn, in this order.
without() {
    local network=$1
    shift
    printf '%s' "${network%'(end)\n'}"
    printf '(out %s)\\n' "$@"
    printf '(end)\\n'
}

# longest [OUTS]: a longest text with so many relays withdrawn, of 45,039 bytes with none and of 54,929 with 1,000: 1,000 relays, and
# 3,000 links whose numbers all have three digits. A path from 100 to 174, and among 923 to 999 every pair.
longest() {
    awk -v outs="${1:-0}" 'BEGIN {
        print "(net (relays 1000) (links 3000))"
        for (b = 101; b <= 174; b++) print "(link " b - 1 " " b ")"
        for (b = 924; b <= 999; b++) for (a = 923; a < b; a++) print "(link " a " " b ")"
        for (r = 0; r < outs; r++) print "(out " r ")"
        print "(end)"
    }'
}

# The network of the longest sheet, from 999 to 998 with k 32. A band from 0 to 967, each relay linked to the next two; every pair
# among 968 to 997, each of these linked to 0 and 967 too; and 998 and 999 linked to all of these and to one end of the band. Relay 0
# has 33 links, and none has more, so the order is that of the numbers: routes 1 and 2 go through the whole band, over the even and
# over the odd relays, and each other one over one of 968 to 997. No relay is left out, so there are as many on the sheet as
# n - 2 + 2 k allows, and n - 2 + k links. These come last in the file, route by route, so that each index has four digits; with 9,821
# bytes no sheet is longer, in whatever order, and what is proved of its length is that it fits into 9,935.
crowded() {
    awk 'BEGIN {
        print "(net (relays 1000) (links 2492))"
        for (b = 1; b <= 967; b++) print "(link " b - 1 " " b ")"
        for (b = 968; b <= 997; b++) {
            print "(link 0 " b ")"
            for (a = 967; a < b; a++) print "(link " a " " b ")"
        }
        for (odd = 0; odd <= 1; odd++) {
            print "(link " odd " 999)"
            for (b = 2 + odd; b <= 967; b += 2) print "(link " b - 2 " " b ")"
            print "(link " 966 + odd " 998)"
        }
        for (a = 968; a <= 997; a++) print "(link " a " 999)\n(link " a " 998)"
        print "(end)"
    }'
}

# spoilt ASK: a network text that departs at each place of its forms, or is refused for another reason, behind the line ASK.
spoilt() {
    try 'no network' "$1" '(refused 2 0)\n'
    try 'the first word of the header' "$1(nut (relays 5) (links 7))\n" '(refused 2 2)\n'
    try 'the number of relays' "$1(net (relays x) (links 7))\n" '(refused 2 13)\n'
    try 'a zero in front of it' "$1(net (relays 04" '(refused 2 14)\n'
    try 'the word behind it' "$1(net (relays 5] (links 7))\n" '(refused 2 14)\n'
    try 'the number of links' "$1(net (relays 5) (links ))\n" '(refused 2 23)\n'
    try 'the last word of the header' "$1(net (relays 5) (links 7)x" '(refused 2 25)\n'
    try 'the word of a link' "$1$one(lunk 0 1)\n(end)\n" '(refused 2 29)\n'
    try 'its low number' "$1$one(link x 1)\n(end)\n" '(refused 2 33)\n'
    try 'the space behind it' "$1$one(link 0_1)\n(end)\n" '(refused 2 34)\n'
    try 'its high number' "$1$one(link 0 )\n(end)\n" '(refused 2 35)\n'
    try 'the end of the line' "$1$one(link 0 1\n(end)\n" '(refused 2 36)\n'
    try 'the end for a link' "$1$one(end)\n" '(refused 2 28)\n'
    try 'the word of the end' "$1$one(link 0 1)\n(and)\n" '(refused 2 39)\n'
    try 'the end of the input for its line end' "$1$one(link 0 1)\n(end)" '(refused 2 43)\n'
    try 'the word of an out line' "$1$one(link 0 1)\n(off 0)\n(end)\n" '(refused 2 40)\n'
    try 'the space behind it' "$1$one(link 0 1)\n(out)\n(end)\n" '(refused 2 42)\n'
    try 'its relay' "$1$one(link 0 1)\n(out x)\n(end)\n" '(refused 2 43)\n'
    try 'a zero in front of it' "$1$one(link 0 1)\n(out 00)\n(end)\n" '(refused 2 44)\n'
    try 'five digits of it' "$1$one(link 0 1)\n(out 10000)\n(end)\n" '(refused 2 47)\n'
    try 'two relays for one' "$1$one(link 0 1)\n(out 0 1)\n(end)\n" '(refused 2 44)\n'
    try 'the bracket behind it' "$1$one(link 0 1)\n(out 9]\n(end)\n" '(refused 2 44)\n'
    try 'the end of its line' "$1$one(link 0 1)\n(out 9) \n(end)\n" '(refused 2 45)\n'
    try 'a capital letter' "$1$one(link 0 1)\n(Out 0)\n(end)\n" '(refused 2 39)\n'
    try 'an out line for a link' "$1$one(out 0)\n(link 0 1)\n(end)\n" '(refused 2 28)\n'
    try 'a link behind an out line' "$1$one(link 0 1)\n(out 0)\n(link 0 2)\n(end)\n" '(refused 2 47)\n'
    try 'no end behind an out line' "$1$one(link 0 1)\n(out 0)\n" '(refused 2 46)\n'
    try 'a byte behind the end' "$1$one(link 0 1)\n(end)\nx" '(refused 2 44)\n'

    try 'no relay' "$1(net (relays 0) (links 0))\n(end)\n" '(refused 3 0)\n'
    try '1,001 relays' "$1(net (relays 1001) (links 0))\n(end)\n" '(refused 3 0)\n'
    try '3,001 links' "$1(net (relays 5) (links 3001))\n" '(refused 4 0)\n'
    try 'a link to no relay' "$1(net (relays 4) (links 1))\n(link 7 7)\n(end)\n" '(refused 5 0)\n'
    try 'a link from a relay to itself' "$1(net (relays 4) (links 2))\n(link 0 1)\n(link 2 2)\n(end)\n" '(refused 6 1)\n'
    try 'a link in falling order' "$1(net (relays 4) (links 2))\n(link 0 1)\n(link 3 2)\n(end)\n" '(refused 6 1)\n'
    try 'a link twice' "$1(net (relays 4) (links 2))\n(link 0 1)\n(link 0 1)\n(end)\n" '(refused 7 1)\n'
    try 'a link twice, before an out line of no relay' "$1(net (relays 4) (links 2))\n(link 0 1)\n(link 0 1)\n(out 4)\n(end)\n" '(refused 7 1)\n'
    try 'an out line of no relay' "$1$one(link 0 1)\n(out 5)\n(end)\n" '(refused 16 0)\n'
    try 'an out line of the highest number' "$1$one(link 0 1)\n(out 9999)\n(end)\n" '(refused 16 0)\n'
    try 'an out line twice' "$1$one(link 0 1)\n(out 3)\n(out 3)\n(end)\n" '(refused 16 0)\n'
    try 'out lines in falling order' "$1$one(link 0 1)\n(out 1)\n(out 3)\n(out 2)\n(end)\n" '(refused 16 0)\n'
    try '16 before what departs in a later line' "$1$one(link 0 1)\n(out 5)\n(and)\n" '(refused 16 0)\n'
}
