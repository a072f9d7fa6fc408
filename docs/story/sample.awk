# Two million IPv4 addresses for docs/LEARN.md, one a line, the same in every run: awk -f sample.awk > sampled.txt
#
# The draws go through all numbers below 2^32 before one comes again, so that no two addresses are the same.
BEGIN {
    draw = 1
    for (place = 0; place < 2000000; place++) {
        draw = (draw * 1664525 + 1013904223) % 4294967296
        printf "%d.%d.%d.%d\n", draw / 16777216, draw / 65536 % 256, draw / 256 % 256, draw % 256
    }
}
