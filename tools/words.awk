# A line in words for each hand record and its answer record: ./annotate --words.
# A line of input has the numbers of a hand record's bytes, a bar, and the numbers of its answer's.
# It must run with any awk, so there are no bit operations: a set is read byte by byte.

BEGIN {
    split("9 9 9 7", kinds)
    split("m p s z", letters)
    split("game neither 3 nor 4|k over 4||a count over 4, |counts sum over 14|not in game 3, |hand record not 36 bytes", why, "|")
}

{
    bar = 0
    for (i = 1; i <= NF; i++) if ($i == "|") bar = i
    bytes = bar - 1
    code = $(bar + 1)
    print hand() "  " (code == 0 ? answer() : refusal(code))
}

# The tiles of a hand, as in 89m1p11z; a count that cannot be written so stands in brackets.
function hand() {
    if (bytes != 36) return "(broken)"
    for (i = 0; i < 34; i++) times[i] = $(i + 1)
    return tiles() "  k " $35 "  game " $36
}

function answer() {
    necessary = set(bar + 3)
    return "number " $(bar + 2) "  necessary " necessary "  unnecessary " set(bar + 8) "  kinds " $(bar + 13) "  live " $(bar + 14)
}

# The record has the number alone. The tile that 4 and 6 are laid to, the lowest one at fault, is found here and is not from
# the proved program.
function refusal(code,    fault) {
    fault = why[code]
    for (i = 0; i < 34; i++) {
        if (code == 4 && $(i + 1) > 4) return "refused: 4 (" fault name(i) ")"
        if (code == 6 && i >= 1 && i <= 7 && $(i + 1) > 0) return "refused: 6 (" fault name(i) ")"
    }
    return "refused: " code " (" fault ")"
}

# The tiles of the set whose five bytes begin at field `from`, the lowest byte first.
function set(from,    byte) {
    for (i = 0; i < 34; i++) {
        if (i % 8 == 0) byte = $(from + i / 8)
        times[i] = byte % 2
        byte = int(byte / 2)
    }
    return tiles()
}

# The tiles in times[0] to times[33]: suits in order, ranks rising, and - for none.
function tiles(    text, group, suit, rank, tile, n) {
    text = ""
    tile = 0
    for (suit = 1; suit <= 4; suit++) {
        group = ""
        for (rank = 1; rank <= kinds[suit]; rank++) {
            n = times[tile++]
            if (n > 4) group = group rank "(" n ")"
            else while (n-- > 0) group = group rank
        }
        if (group != "") text = text group letters[suit]
    }
    return text == "" ? "-" : text
}

function name(i) {
    return (i % 9 + 1) substr("mpsz", int(i / 9) + 1, 1)
}
