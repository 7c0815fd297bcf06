# Finds the first line of a set that is no report as it may be; where all are, the last one, which then lacks its line end. Prints how
# many lines and how many bytes stand in front of it. Input: the set, without NUL bytes.

{ bytes_before = bytes; bytes += length($0) + 1 }
!fits() { exit }
END { print NR - 1, bytes_before + 0 }

# Whether the line is a report as it may be. The longest has 3,917 bytes.
function fits(    i, neighbour, least) {
    if (length($0) > 4000 || !/^\(report [0-9]+ [0-9]+ \(sees( [0-9]+)*\)\)$/ || / 0[0-9]/) return 0
    if ($2 + 0 > 999 || $3 + 0 > 4294967295) return 0
    least = 0
    for (i = 5; i <= NF; i++) {
        neighbour = $i + 0
        if (neighbour < least || neighbour > 999 || neighbour == $2 + 0) return 0
        least = neighbour + 1
    }
    return 1
}
