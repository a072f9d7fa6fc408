/* A map of records of prefixes, made here from document 02's paragraph. It is written from its end towards its front, a bit in each element:
 * so a JUMP comes when the half that it jumps over stands there, and its length is known. */

/* More bits than the lists of these tests make. */
#define MOST_BITS (1 << 17)

static struct {
    uint8_t bit[MOST_BITS], bytes[MOST_BITS / 8];
    size_t front;
    const uint8_t *records;
    uint32_t given;
} built;

/* So many bits of a number in front of what stands there; the highest is the first. */
static void in_front(unsigned bits, uint32_t number) {
    for (; bits > 0; bits--, number >>= 1)
        built.bit[--built.front] = (uint8_t)(number & 1);
}

/* A code of classes: those with fewer bits are passed over, a 1 for each, and a 0 ends them but for the last. */
static void code_in_front(uint32_t above_least, unsigned bits, unsigned most_bits) {
    unsigned passed = 0;
    for (; bits < most_bits && above_least >= UINT32_C(1) << bits; bits++, passed++)
        above_least -= UINT32_C(1) << bits;
    in_front(bits, above_least);
    if (bits < most_bits)
        in_front(1, 0);
    for (; passed > 0; passed--)
        in_front(1, 1);
}

static uint32_t listed_number(const uint8_t *record) {
    return record[20] | (uint32_t)record[21] << 8 | (uint32_t)record[22] << 16 | (uint32_t)record[23] << 24;
}

/* The subtree of the records from one up to another, all of which begin with the same `depth` bits. Says the number of its addresses, or 0
 * where they have several. */
static uint32_t subtree(size_t from, size_t to, unsigned depth) {
    const size_t end = built.front;
    uint32_t number = built.given, of_zero, of_one;
    size_t middle = from, target;
    if (from < to && built.records[24 * from + 16] <= depth)
        number = listed_number(built.records + 24 * from);
    else if (from < to) {
        while (middle < to && !(built.records[24 * middle + depth / 8] >> (7 - depth % 8) & 1))
            middle++;
        of_one = subtree(middle, to, depth + 1);
        target = built.front;
        of_zero = subtree(from, middle, depth + 1);
        if (of_one == 0 || of_one != of_zero) {
            code_in_front((uint32_t)(target - built.front) - 17, 5, 30);
            in_front(2, 2);
            return 0;
        }
        /* Both halves are a RETURN of one number: so is the whole. */
        built.front = end;
        number = of_one;
    }
    code_in_front(number - 1, 15, 24);
    in_front(1, 0);
    return number;
}

/* Makes the map of records, which have to be right, and says how many bytes it has. */
static size_t make_built(const uint8_t *records, size_t count, uint32_t given) {
    size_t bits;
    built.front = MOST_BITS;
    built.records = records;
    built.given = given;
    subtree(0, count, 0);
    bits = MOST_BITS - built.front;
    memset(built.bytes, 0, (bits + 7) / 8);
    for (size_t i = 0; i < bits; i++)
        built.bytes[i / 8] |= (uint8_t)(built.bit[built.front + i] << i % 8);
    return (bits + 7) / 8;
}
