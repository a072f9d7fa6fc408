# The map of docs/LEARN.md that has about 1.6 MB, as the list that `asmap pack` takes: awk -f tree.awk > large.txt
#
# All of IPv4 is halved, and each half again, down to 491,000 parts. Each has a number of its own, drawn the same in every run. One address
# alone, 203.0.113.7, has another than its part: 64500.

# A bit of that address, the highest at 0.
function bit(place) { return int(address / 2 ^ (31 - place)) % 2 }

# How many bits of the map a JUMP takes that skips so many.
function jump(skipped,    size) {
    skipped -= 17
    for (size = 5; skipped >= 2 ^ size; size++) skipped -= 2 ^ size
    return 2 * size - 2
}

# How many bits n parts take, behind so many bits of an address; `around` where that address lies in them.
function bits(n, used, around,    half, zero) {
    if (n == 1) return around ? 38 + match_bits(32 - used) : 17
    half = int(n / 2)
    if (around) {
        zero = bits(half, used + 1, !bit(used))
        return jump(zero) + zero + bits(n - half, used + 1, bit(used))
    }
    if (!(n in known)) known[n] = jump(bits(half)) + bits(half) + bits(n - half)
    return known[n]
}

# How many bits the MATCHes of so many address bits take: what is not a whole byte first.
function match_bits(left) { return 18 * int(left / 8) + (left % 8 ? 2 * (left % 8) + 3 : 0) }

function matches(used,    until, row) {
    while (used < 32) {
        row = ""
        for (until = used + ((32 - used) % 8 ? (32 - used) % 8 : 8); used < until; used++) row = row bit(used)
        print "MATCH", row
    }
}

function number() { return 1 + int((seed = (seed * 1664525 + 1013904223) % 4294967296) / 131072) }

function tree(n, used, around,    half) {
    if (n > 1) {
        half = int(n / 2)
        print "JUMP", bits(half, used + 1, around && !bit(used))
        tree(half, used + 1, around && !bit(used))
        tree(n - half, used + 1, around && bit(used))
    } else if (around) {
        print "DEFAULT", number()
        matches(used)
        print "RETURN 64500"
    } else print "RETURN", number()
}

BEGIN {
    seed = 1
    address = ((203 * 256 + 0) * 256 + 113) * 256 + 7
    for (place = 0; place < 12; place++) print "MATCH", place < 10 ? "00000000" : "11111111"
    tree(491000, 0, 1)
}
