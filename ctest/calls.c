/* Every call of the header once done and once refused, from C. Exits with 1 where an answer differs from the one written here. The numbers
 * are chosen so that no two parameters of a call can be exchanged unseen (swaps.c). */
#include "cases.h"
#include "built.h"
#include "old.h"

static const uint8_t none[1] = {0};

/* One byte over the limit. */
static uint8_t too_long[CORBASTRIGO_MAX_MAP_BYTES + 1];

/* In any row two ones are the beginning of a longer code. */
static const uint8_t ones[1] = {0xff};

typedef uint8_t encode(uint32_t, uint64_t *, size_t *);

/* A row: its least value is written, read again from the fourth bit on, read where it is cut, and a number below or above the row is
 * refused. A code is cut behind one bit or two, and from the map's end on. */
static void row(decode *reads, encode *writes, uint32_t least, size_t len, uint32_t outside, uint8_t cut) {
    uint32_t value = BEFORE(1);
    size_t next = BEFORE(2), length = BEFORE(2);
    uint64_t bits = BEFORE(1);
    uint8_t bytes[8];
    IS(writes(outside, &bits, &length), CORBASTRIGO_OUT_OF_RANGE);
    IS(bits, BEFORE(1));
    IS(length, BEFORE(2));
    IS(writes(least, &bits, &length), 0);
    IS(length, len);
    for (int i = 0; i < 8; i++)
        bytes[i] = (uint8_t)(bits << 3 >> (8 * i));
    IS(reads(bytes, 0, 0, &value, &next), cut);
    IS(reads(bytes, 0, 1, &value, &next), cut);
    IS(reads(bytes, 8, 64, &value, &next), cut);
    IS(reads(bytes, 8, 65, &value, &next), cut);
    IS(reads(bytes, 8, SIZE_MAX, &value, &next), cut);
    IS(reads(ones, 1, 7, &value, &next), cut);
    IS(reads(ones, 1, 6, &value, &next), cut);
    IS(reads(too_long, sizeof too_long, 0, &value, &next), CORBASTRIGO_MAP_TOO_LONG);
    IS(value, BEFORE(1));
    IS(next, BEFORE(2));
    IS(reads(bytes, 8, 3, &value, &next), 0);
    IS(value, least);
    IS(next, 3 + len);
}

/* Instructions whose opcode is cut after two bits, after one, and from the map's end on; then those whose opcode is whole, RETURN, RETURN,
 * MATCH, JUMP and DEFAULT, and the operand is cut. */
static void cut_instructions(void) {
    uint32_t opcode = BEFORE(1), operand = BEFORE(2);
    size_t size = BEFORE(3);
    IS(corbastrigo_decode_instruction(ones, 1, 6, &opcode, &operand, &size), CORBASTRIGO_CUT_OPCODE);
    IS(corbastrigo_decode_instruction(cut_opcode, 1, 7, &opcode, &operand, &size), CORBASTRIGO_CUT_OPCODE);
    IS(corbastrigo_decode_instruction(lone_jump, 1, 8, &opcode, &operand, &size), CORBASTRIGO_CUT_OPCODE);
    IS(corbastrigo_decode_instruction(lone_jump, 1, 9, &opcode, &operand, &size), CORBASTRIGO_CUT_OPCODE);
    IS(corbastrigo_decode_instruction(lone_jump, 1, SIZE_MAX, &opcode, &operand, &size), CORBASTRIGO_CUT_OPCODE);
    IS(corbastrigo_decode_instruction(none, 0, 0, &opcode, &operand, &size), CORBASTRIGO_CUT_OPCODE);
    IS(corbastrigo_decode_instruction(lone_jump, 1, 1, &opcode, &operand, &size), CORBASTRIGO_CUT_OPERAND);
    IS(corbastrigo_decode_instruction(lone_jump, 1, 7, &opcode, &operand, &size), CORBASTRIGO_CUT_OPERAND);
    IS(corbastrigo_decode_instruction(cut_operand, 1, 0, &opcode, &operand, &size), CORBASTRIGO_CUT_OPERAND);
    IS(corbastrigo_decode_instruction(cut_operand, 1, 1, &opcode, &operand, &size), CORBASTRIGO_CUT_OPERAND);
    IS(corbastrigo_decode_instruction(ones, 1, 5, &opcode, &operand, &size), CORBASTRIGO_CUT_OPERAND);
    IS(opcode, BEFORE(1));
    IS(operand, BEFORE(2));
    IS(size, BEFORE(3));
}

static void codes(void) {
    uint32_t opcode = BEFORE(1), operand = BEFORE(2);
    size_t size = BEFORE(3), length = BEFORE(2);
    uint64_t bits = BEFORE(1);
    row(corbastrigo_decode_type, corbastrigo_encode_type, 0, 1, 4, CORBASTRIGO_CUT_OPCODE);
    row(corbastrigo_decode_asn, corbastrigo_encode_asn, 1, 16, 0, CORBASTRIGO_CUT_OPERAND);
    row(corbastrigo_decode_match, corbastrigo_encode_match, 2, 2, 512, CORBASTRIGO_CUT_OPERAND);
    row(corbastrigo_decode_jump, corbastrigo_encode_jump, 17, 6, 16, CORBASTRIGO_CUT_OPERAND);
    cut_instructions();
    IS(corbastrigo_decode_instruction(too_long, sizeof too_long, 0, &opcode, &operand, &size), CORBASTRIGO_MAP_TOO_LONG);
    IS(opcode, BEFORE(1));
    IS(operand, BEFORE(2));
    IS(size, BEFORE(3));
    IS(corbastrigo_decode_instruction(lone_jump, 1, 0, &opcode, &operand, &size), 0);
    IS(opcode, CORBASTRIGO_JUMP);
    IS(operand, 17);
    IS(size, 8);
    IS(corbastrigo_encode_instruction(CORBASTRIGO_JUMP, 16, &bits, &length), CORBASTRIGO_OUT_OF_RANGE);
    IS(corbastrigo_encode_instruction(4, 17, &bits, &length), CORBASTRIGO_OUT_OF_RANGE);
    IS(bits, BEFORE(1));
    IS(length, BEFORE(2));
    IS(corbastrigo_encode_instruction(CORBASTRIGO_JUMP, 17, &bits, &length), 0);
    IS(bits, 1);
    IS(length, 8);
}

static void check(void) {
    uint32_t count = BEFORE(1);
    uint8_t depth = BEFORE(2);
    IS(corbastrigo_sanity_check(none, 0, &count, &depth), CORBASTRIGO_MAP_ENDS);
    IS(corbastrigo_sanity_check(two_prefixes, 34, &count, &depth), CORBASTRIGO_CUT_OPERAND);
    IS(corbastrigo_sanity_check(cut_operand, 1, &count, &depth), CORBASTRIGO_CUT_OPERAND);
    IS(corbastrigo_sanity_check(cut_opcode, 1, &count, &depth), CORBASTRIGO_CUT_OPCODE);
    IS(corbastrigo_sanity_check(too_long, sizeof too_long, &count, &depth), CORBASTRIGO_MAP_TOO_LONG);
    IS(count, BEFORE(1));
    IS(depth, BEFORE(2));
    IS(corbastrigo_sanity_check(two_prefixes, 35, &count, &depth), 0);
    IS(count, 16);
    IS(depth, 1);
    IS(corbastrigo_sanity_check(lone_return, 3, &count, &depth), 0);
    IS(count, 1);
    IS(depth, 0);
}

/* The jump of lone_jump is whole, so its map ends at bit 8; two_prefixes is cut in the number of its last RETURN. */
static void stop(void) {
    uint8_t reason = BEFORE(1);
    size_t place = BEFORE(2);
    IS(corbastrigo_sanity_check_stop(too_long, sizeof too_long, &reason, &place), CORBASTRIGO_MAP_TOO_LONG);
    IS(reason, BEFORE(1));
    IS(place, BEFORE(2));
    IS(corbastrigo_sanity_check_stop(lone_jump, 1, &reason, &place), 0);
    IS(reason, CORBASTRIGO_MAP_ENDS);
    IS(place, 8);
    IS(corbastrigo_sanity_check_stop(two_prefixes, 34, &reason, &place), 0);
    IS(reason, CORBASTRIGO_CUT_OPERAND);
    IS(place, 256);
    IS(corbastrigo_sanity_check_stop(cut_opcode, 1, &reason, &place), 0);
    IS(reason, CORBASTRIGO_CUT_OPCODE);
    IS(place, 7);
    IS(corbastrigo_sanity_check_stop(two_prefixes, 35, &reason, &place), 0);
    IS(reason, 0);
    IS(place, 256);
}

static void walk(void) {
    uint8_t address[16], kind = BEFORE(1), bits = BEFORE(4);
    uint32_t number = BEFORE(2), count = BEFORE(3);
    mapped(address, 3, 4, 0, 0);
    IS(corbastrigo_interpret(two_prefixes, 35, address, 15, &kind, &number, &count, &bits), CORBASTRIGO_ADDRESS_LENGTH);
    IS(corbastrigo_interpret(too_long, sizeof too_long, address, 16, &kind, &number, &count, &bits), CORBASTRIGO_MAP_TOO_LONG);
    IS(kind, BEFORE(1));
    IS(number, BEFORE(2));
    IS(count, BEFORE(3));
    IS(bits, BEFORE(4));
    IS(corbastrigo_interpret(two_prefixes, 35, address, 16, &kind, &number, &count, &bits), 0);
    IS(kind, CORBASTRIGO_RETURNED);
    IS(number, 2);
    IS(count, 15);
    IS(bits, 103);
    mapped(address, 8, 8, 8, 8);
    IS(corbastrigo_interpret(two_prefixes, 35, address, 16, &kind, &number, &count, &bits), 0);
    IS(kind, CORBASTRIGO_DIFFERED);
    IS(number, 0);
    IS(count, 13);
    IS(bits, 101);
    IS(corbastrigo_interpret(lone_jump, 1, address, 16, &kind, &number, &count, &bits), 0);
    IS(kind, CORBASTRIGO_CUT_OPCODE);
    IS(number, 0);
    IS(count, 1);
    IS(bits, 1);
}

/* Walks by an address of one byte over and over, at both widths alike: each kind of end, and each way to it that the map's end has. */
static const struct {
    size_t len;
    uint8_t map[5], fill, kind, number, count, bits;
} walks[] = {
    {3, {0x00, 0x00, 0x00}, 0x00, CORBASTRIGO_RETURNED, 1, 1, 0},
    {3, {0x03, 0x00, 0x00}, 0xff, CORBASTRIGO_DIFFERED, 0, 1, 1},               /* at a MATCH of 0, before any DEFAULT */
    {5, {0x07, 0x00, 0x18, 0x00, 0x00}, 0xff, CORBASTRIGO_DIFFERED, 1, 2, 1},   /* the same behind a DEFAULT */
    {0, {0}, 0x00, CORBASTRIGO_CUT_OPCODE, 0, 0, 0},                            /* the map is empty */
    {1, {0x01}, 0x00, CORBASTRIGO_CUT_OPCODE, 0, 1, 1},                         /* at the map's end, behind a JUMP that is not taken */
    {1, {0x01}, 0xff, CORBASTRIGO_CUT_OPCODE, 0, 1, 1},                         /* past the map's end, by a JUMP that is */
    {4, {0x01, 0xff, 0xff, 0xff}, 0xff, CORBASTRIGO_CUT_OPERAND, 0, 1, 1},      /* by a JUMP to bit 25: DEFAULT, without its number */
    {4, {0xa1, 0x00, 0x00, 0xc0}, 0xff, CORBASTRIGO_CUT_OPCODE, 0, 1, 1},       /* by a JUMP to bit 30: two bits of an opcode */
    {1, {0x8b}, 0x00, CORBASTRIGO_CUT_OPCODE, 0, 1, 2},                         /* one bit of an opcode, behind a MATCH */
    {1, {0x00}, 0x00, CORBASTRIGO_CUT_OPERAND, 0, 0, 0},                        /* RETURN, JUMP, MATCH, DEFAULT without the end of theirs */
    {1, {0x05}, 0x00, CORBASTRIGO_CUT_OPERAND, 0, 0, 0},
    {1, {0xfb}, 0x00, CORBASTRIGO_CUT_OPERAND, 0, 0, 0},
    {2, {0x07, 0x00}, 0x00, CORBASTRIGO_CUT_OPERAND, 0, 0, 0},
};

static void kinds(void) {
    uint8_t address[16], kind, bits;
    uint32_t number, count;
    for (size_t i = 0; i < sizeof walks / sizeof *walks; i++)
        for (uint32_t width = 0; width <= 128; width += width == 0 ? 32 : 96) {
            memset(address, walks[i].fill, sizeof address);
            kind = bits = BEFORE(1);
            number = count = BEFORE(2);
            if (width == 0)
                IS(corbastrigo_interpret(walks[i].map, walks[i].len, address, 16, &kind, &number, &count, &bits), 0);
            else
                IS(corbastrigo_interpret_bits(walks[i].map, walks[i].len, address, width / 8, width, &kind, &number, &count, &bits), 0);
            IS(kind, walks[i].kind);
            IS(number, walks[i].number);
            IS(count, walks[i].count);
            IS(bits, walks[i].bits);
            IS(corbastrigo_aborted(kind), walks[i].kind >= CORBASTRIGO_TOO_FEW_BITS);
        }
}

/* Too few address bits for a JUMP, and for a MATCH of 2 that has one left. What it could not read no map's end cuts. */
static void too_few_bits(void) {
    uint8_t map[128] = {0}, address[16] = {0}, kind = BEFORE(1), bits = BEFORE(4);
    uint32_t number = BEFORE(2), count = BEFORE(3);
    memset(map, 0x01, sizeof map);
    IS(corbastrigo_interpret_bits(map, 33, address, 4, 32, &kind, &number, &count, &bits), 0);
    IS(kind, CORBASTRIGO_TOO_FEW_BITS);
    IS(number, 0);
    IS(count, 33);
    IS(bits, 32);
    IS(corbastrigo_interpret_bits(map, 32, address, 4, 32, &kind, &number, &count, &bits), 0);
    IS(kind, CORBASTRIGO_CUT_OPCODE);
    IS(count, 32);
    map[127] = 0x8b;
    IS(corbastrigo_interpret(map, 128, address, 16, &kind, &number, &count, &bits), 0);
    IS(kind, CORBASTRIGO_TOO_FEW_BITS);
    IS(number, 0);
    IS(count, 128);
    IS(bits, 127);
    map[127] = 0x05;
    IS(corbastrigo_interpret(map, 128, address, 16, &kind, &number, &count, &bits), 0);
    IS(kind, CORBASTRIGO_CUT_OPERAND);
    IS(count, 127);
}

static void records(void) {
    uint8_t list[256], bytes[35];
    size_t written = BEFORE(2);
    memset(list, BEFORE(1), sizeof list);
    memset(bytes, BEFORE(1), sizeof bytes);
    IS(corbastrigo_unpack(lone_jump, 1, list, sizeof list, &written), CORBASTRIGO_MAP_ENDS);
    IS(corbastrigo_unpack(two_prefixes, 35, list, 255, &written), CORBASTRIGO_OUTPUT_TOO_SHORT);
    IS(list[0], BEFORE(1));
    IS(written, BEFORE(2));
    IS(corbastrigo_unpack(two_prefixes, 35, list, 256, &written), 0);
    IS(written, 256);
    IS(list[0], CORBASTRIGO_MATCH);
    written = BEFORE(2);
    IS(corbastrigo_pack(list, 255, bytes, 35, &written), CORBASTRIGO_RECORD);
    IS(corbastrigo_pack(list, 256, bytes, 34, &written), CORBASTRIGO_OUTPUT_TOO_SHORT);
    list[0] = 4;
    IS(corbastrigo_pack(list, 256, bytes, 35, &written), CORBASTRIGO_OUT_OF_RANGE);
    list[0] = CORBASTRIGO_MATCH;
    IS(bytes[0], BEFORE(1));
    IS(written, BEFORE(2));
    IS(corbastrigo_pack(list, 256, bytes, 35, &written), 0);
    IS(written, 35);
    IS(memcmp(bytes, two_prefixes, 35), 0);
}

/* How many bytes still hold what the first lent slice held before. */
static size_t untouched(const uint8_t *bytes, size_t len) {
    size_t count = 0;
    for (size_t i = 0; i < len; i++)
        count += bytes[i] == BEFORE(1);
    return count;
}

/* A map for each of the check's reasons: the list has them all. */
static const struct {
    uint8_t reason;
    size_t len;
    uint8_t map[37];
} refused[] = {
    {CORBASTRIGO_MAP_ENDS, 1, {0x01}},
    {CORBASTRIGO_PAST_TARGET, 4, {0x01, 0xfb, 0x03, 0x00}},
    {CORBASTRIGO_CUT_OPCODE, 1, {0x8b}},
    {CORBASTRIGO_CUT_OPERAND, 1, {0xfb}},
    {CORBASTRIGO_AFTER_DEFAULT, 3, {0x07, 0x00, 0x00}},
    {CORBASTRIGO_PADDING, 3, {0x00, 0x00, 0x02}},
    {CORBASTRIGO_NOT_AT_TARGET, 5, {0xfd, 0x71, 0x3a, 0x00, 0x00}},
    {CORBASTRIGO_NO_BITS, 37, {0xfb, 0x03, 0xec, 0x0f, 0xb0, 0x3f, 0xc0, 0xfe, 0x00, 0xfb, 0x03, 0xec, 0x0f,
                               0xb0, 0x3f, 0xc0, 0xfe, 0x00, 0xfb, 0x03, 0xec, 0x0f, 0xb0, 0x3f, 0xc0, 0xfe,
                               0x00, 0xfb, 0x03, 0xec, 0x0f, 0xb0, 0x3f, 0xc0, 0xfe, 0x00, 0x01}},
    {CORBASTRIGO_TARGETS_CROSS, 2, {0x01, 0x01}},
    {CORBASTRIGO_SHORT_MATCHES, 4, {0x63, 0x00, 0x00, 0x00}},
};

/* What unpack refuses, and that it has written nothing then. */
static void refused_records(void) {
    uint8_t list[256];
    size_t written = BEFORE(2);
    memset(list, BEFORE(1), sizeof list);
    for (size_t i = 0; i < sizeof refused / sizeof *refused; i++) {
        IS(corbastrigo_unpack(refused[i].map, refused[i].len, list, sizeof list, &written), refused[i].reason);
        IS(corbastrigo_unpack(refused[i].map, refused[i].len, list, 0, &written), refused[i].reason);
    }
    IS(untouched(list, sizeof list), sizeof list);
    IS(written, BEFORE(2));
}

/* What the list refuses, and that it has written nothing then. */
static void refused_lists(void) {
    uint8_t list[2496];
    size_t written = BEFORE(2), bytes = BEFORE(3);
    memset(list, BEFORE(1), sizeof list);
    for (size_t i = 0; i < sizeof refused / sizeof *refused; i++) {
        IS(corbastrigo_list(refused[i].map, refused[i].len, list, sizeof list, &written), refused[i].reason);
        IS(corbastrigo_list(refused[i].map, refused[i].len, list, 0, &written), refused[i].reason);
        IS(corbastrigo_list_bytes(refused[i].map, refused[i].len, &bytes), refused[i].reason);
    }
    IS(corbastrigo_list(too_long, sizeof too_long, list, sizeof list, &written), CORBASTRIGO_MAP_TOO_LONG);
    IS(corbastrigo_list_bytes(too_long, sizeof too_long, &bytes), CORBASTRIGO_MAP_TOO_LONG);
    IS(corbastrigo_list(two_prefixes, 35, list, 2495, &written), CORBASTRIGO_OUTPUT_TOO_SHORT);
    IS(untouched(list, sizeof list), sizeof list);
    IS(written, BEFORE(2));
    IS(bytes, BEFORE(3));
}

/* The seventeenth and eighteenth prefix of the map are those with a number: 0.0.0.0/7 and 2.0.0.0/7. */
static void lists(void) {
    static const uint8_t numbered[48] = {0, 0, 0, 0, 0, 0, 0, 0, 0, 0, 0xff, 0xff, 0, 0, 0, 0, 103, 0, 0, 0, 1, 0, 0, 0,
                                         0, 0, 0, 0, 0, 0, 0, 0, 0, 0, 0xff, 0xff, 2, 0, 0, 0, 103, 0, 0, 0, 2, 0, 0, 0};
    static const uint8_t whole[24] = {0, 0, 0, 0, 0, 0, 0, 0, 0, 0, 0, 0, 0, 0, 0, 0, 0, 0, 0, 0, 1, 0, 0, 0};
    uint8_t list[2500];
    size_t written = BEFORE(2), bytes = BEFORE(3);
    memset(list, BEFORE(1), sizeof list);
    IS(corbastrigo_list_bytes(lone_return, 3, &bytes), 0);
    IS(bytes, CORBASTRIGO_PREFIX_RECORD_BYTES);
    IS(corbastrigo_list(lone_return, 3, list, 24, &written), 0);
    IS(written, 24);
    IS(memcmp(list, whole, 24), 0);
    IS(untouched(list + 24, sizeof list - 24), sizeof list - 24);
    IS(corbastrigo_list_bytes(two_prefixes, 35, &bytes), 0);
    IS(bytes, 2496);
    IS(corbastrigo_list(two_prefixes, 35, list, sizeof list, &written), 0);
    IS(written, 2496);
    IS(list[16], 81);
    IS(memcmp(list + 16 * 24, numbered, 48), 0);
    IS(list[103 * 24], 0x80);
    IS(list[103 * 24 + 16], 1);
    IS(untouched(list + 2496, 4), 4);
}

/* Both calls over two maps that are refused, with room and without: the reason comes before an output is looked at. */
static void refused_pair(const uint8_t *old_map, size_t old_len, const uint8_t *new_map, size_t new_len, int reason) {
    uint8_t list[28], first[16];
    size_t written = BEFORE(2), bytes = BEFORE(3);
    memset(list, BEFORE(1), sizeof list);
    memset(first, BEFORE(1), sizeof first);
    IS(corbastrigo_compare(old_map, old_len, new_map, new_len, list, sizeof list, &written), reason);
    IS(corbastrigo_compare(old_map, old_len, new_map, new_len, list, 0, &written), reason);
    IS(corbastrigo_compare_bytes(old_map, old_len, new_map, new_len, first, sizeof first, &bytes), reason);
    IS(corbastrigo_compare_bytes(old_map, old_len, new_map, new_len, first, 0, &bytes), reason);
    IS(untouched(list, sizeof list), sizeof list);
    IS(untouched(first, sizeof first), sizeof first);
    IS(written, BEFORE(2));
    IS(bytes, BEFORE(3));
}

/* Each reason of either map; of two that are refused the old one's. */
static void refused_comparisons(void) {
    const size_t count = sizeof refused / sizeof *refused;
    for (size_t i = 0; i < count; i++) {
        const size_t other = (i + 1) % count;
        refused_pair(refused[i].map, refused[i].len, lone_return, 3, refused[i].reason);
        refused_pair(lone_return, 3, refused[i].map, refused[i].len, CORBASTRIGO_NEW_MAP + refused[i].reason);
        refused_pair(refused[i].map, refused[i].len, refused[other].map, refused[other].len, refused[i].reason);
    }
    refused_pair(too_long, sizeof too_long, lone_return, 3, CORBASTRIGO_MAP_TOO_LONG);
    refused_pair(lone_return, 3, too_long, sizeof too_long, CORBASTRIGO_NEW_MAP + CORBASTRIGO_MAP_TOO_LONG);
    refused_pair(lone_jump, 1, too_long, sizeof too_long, CORBASTRIGO_MAP_ENDS);
    refused_pair(too_long, sizeof too_long, lone_jump, 1, CORBASTRIGO_MAP_TOO_LONG);
}

/* The lone RETURN says 1 of every address, and the map says it of 0.0.0.0/7: its 103 other prefixes are the pieces. */
static void comparisons(void) {
    static const uint8_t around[56] = {0, 0, 0, 0, 0, 0, 0, 0, 0, 0, 0xff, 0xfe, 0, 0, 0, 0, 96, 0, 0, 0, 0, 0, 0, 0, 1, 0, 0, 0,
                                       0, 0, 0, 0, 0, 0, 0, 0, 0, 0, 0xff, 0xff, 2, 0, 0, 0, 103, 0, 0, 0, 2, 0, 0, 0, 1, 0, 0, 0};
    uint8_t list[2888];
    size_t written = BEFORE(2);
    memset(list, BEFORE(1), sizeof list);
    IS(corbastrigo_compare(two_prefixes, 35, lone_return, 3, list, 2883, &written), CORBASTRIGO_OUTPUT_TOO_SHORT);
    IS(untouched(list, sizeof list), sizeof list);
    IS(written, BEFORE(2));
    IS(corbastrigo_compare(two_prefixes, 35, two_prefixes, 35, list, sizeof list, &written), 0);
    IS(written, 0);
    IS(untouched(list, sizeof list), sizeof list);
    IS(corbastrigo_compare(two_prefixes, 35, lone_return, 3, list, 2884, &written), 0);
    IS(written, 103 * CORBASTRIGO_CHANGE_RECORD_BYTES);
    IS(list[16], 81);
    IS(memcmp(list + 15 * 28, around, 56), 0);
    IS(list[102 * 28], 0x80);
    IS(untouched(list + 2884, 4), 4);
    memset(list, BEFORE(1), sizeof list);
    IS(corbastrigo_compare(lone_return, 3, two_prefixes, 35, list, sizeof list, &written), 0);
    IS(written, 2884);
    IS(memcmp(list + 15 * 28, around, 20), 0);
    IS(list[16 * 28 + 20], 1);
    IS(list[16 * 28 + 24], 2);
    IS(untouched(list + 2884, 4), 4);
}

/* A bit of the map's last RETURN is turned over, so that 2.0.0.0/7 goes to 1. */
static void comparison_bytes(void) {
    uint8_t changed[35], first[20], from[16];
    size_t bytes = BEFORE(3);
    memcpy(changed, two_prefixes, 35);
    changed[34] = 0;
    memset(first, BEFORE(1), sizeof first);
    IS(corbastrigo_compare_bytes(two_prefixes, 35, changed, 35, first, 15, &bytes), CORBASTRIGO_OUTPUT_TOO_SHORT);
    IS(untouched(first, sizeof first), sizeof first);
    IS(bytes, BEFORE(3));
    IS(corbastrigo_compare_bytes(two_prefixes, 35, changed, 35, first, 16, &bytes), 0);
    IS(bytes, CORBASTRIGO_CHANGE_RECORD_BYTES);
    mapped(from, 2, 0, 0, 0);
    IS(memcmp(first, from, 16), 0);
    IS(corbastrigo_compare_bytes(changed, 35, lone_return, 3, first, sizeof first, &bytes), 0);
    IS(bytes, 102 * CORBASTRIGO_CHANGE_RECORD_BYTES);
    IS(memcmp(first, none, 1), 0);
    memset(from, 0, sizeof from);
    first[15] = BEFORE(1);
    IS(corbastrigo_compare_bytes(changed, 35, changed, 35, first, sizeof first, &bytes), 0);
    IS(bytes, 0);
    IS(memcmp(first, from, 16), 0);
    IS(untouched(first + 16, 4), 4);
}

/* Around 32 and 128, both at once, and what would be one of them, or both, if it were cut to a byte. */
static const uint32_t no_widths[] = {0, 31, 33, 64, 127, 129, 160, 256 + 32, 256 + 128, UINT32_MAX - 95, UINT32_MAX};

/* Every call that takes a width, refused for it: with a map that is sane, and with all that is refused later. */
static void no_width(uint32_t width) {
    uint8_t address[16] = {3, 4}, small = BEFORE(1), other = BEFORE(2), out[224];
    uint32_t number = BEFORE(3), count = BEFORE(4);
    size_t size = BEFORE(5);
    memset(out, BEFORE(1), sizeof out);
    IS(corbastrigo_sanity_check_bits(two_narrow, 8, width, &count, &small), CORBASTRIGO_WIDTH);
    IS(corbastrigo_sanity_check_bits(too_long, sizeof too_long, width, &count, &small), CORBASTRIGO_WIDTH);
    IS(corbastrigo_sanity_check_stop_bits(two_narrow, 8, width, &small, &size), CORBASTRIGO_WIDTH);
    IS(corbastrigo_sanity_check_stop_bits(too_long, sizeof too_long, width, &small, &size), CORBASTRIGO_WIDTH);
    IS(corbastrigo_interpret_bits(two_narrow, 8, address, 4, width, &small, &number, &count, &other), CORBASTRIGO_WIDTH);
    IS(corbastrigo_interpret_bits(two_prefixes, 35, address, 16, width, &small, &number, &count, &other), CORBASTRIGO_WIDTH);
    IS(corbastrigo_interpret_bits(too_long, sizeof too_long, address, 5, width, &small, &number, &count, &other), CORBASTRIGO_WIDTH);
    IS(corbastrigo_unpack_bits(two_narrow, 8, width, out, 64, &size), CORBASTRIGO_WIDTH);
    IS(corbastrigo_unpack_bits(none, 0, width, out, 0, &size), CORBASTRIGO_WIDTH);
    IS(corbastrigo_list_bits(two_narrow, 8, width, out, 192, &size), CORBASTRIGO_WIDTH);
    IS(corbastrigo_list_bits(too_long, sizeof too_long, width, out, 0, &size), CORBASTRIGO_WIDTH);
    IS(corbastrigo_list_bytes_bits(two_narrow, 8, width, &size), CORBASTRIGO_WIDTH);
    IS(corbastrigo_list_bytes_bits(none, 0, width, &size), CORBASTRIGO_WIDTH);
    IS(corbastrigo_compare_bits(two_narrow, 8, lone_return, 3, width, out, 224, &size), CORBASTRIGO_WIDTH);
    IS(corbastrigo_compare_bits(too_long, sizeof too_long, lone_return, 3, width, out, 0, &size), CORBASTRIGO_WIDTH);
    IS(corbastrigo_compare_bits(lone_return, 3, too_long, sizeof too_long, width, out, 28, &size), CORBASTRIGO_WIDTH);
    IS(corbastrigo_compare_bytes_bits(two_narrow, 8, lone_return, 3, width, out, 16, &size), CORBASTRIGO_WIDTH);
    IS(corbastrigo_compare_bytes_bits(lone_return, 3, too_long, sizeof too_long, width, out, 15, &size), CORBASTRIGO_WIDTH);
    IS(small, BEFORE(1));
    IS(other, BEFORE(2));
    IS(number, BEFORE(3));
    IS(count, BEFORE(4));
    IS(size, BEFORE(5));
    IS(untouched(out, sizeof out), sizeof out);
}

/* The four MATCHes of a byte in front of two_prefixes use up 32 bits: the one behind them starts at bit 72. */
static void checks_at_a_width(void) {
    uint32_t count = BEFORE(1);
    uint8_t depth = BEFORE(2), reason = BEFORE(1);
    size_t place = BEFORE(2);
    IS(corbastrigo_sanity_check_bits(two_prefixes, 35, 32, &count, &depth), CORBASTRIGO_NO_BITS);
    IS(corbastrigo_sanity_check_bits(too_long, sizeof too_long, 32, &count, &depth), CORBASTRIGO_MAP_TOO_LONG);
    IS(corbastrigo_sanity_check_stop_bits(too_long, sizeof too_long, 32, &reason, &place), CORBASTRIGO_MAP_TOO_LONG);
    IS(count, BEFORE(1));
    IS(depth, BEFORE(2));
    IS(reason, BEFORE(1));
    IS(place, BEFORE(2));
    IS(corbastrigo_sanity_check_bits(two_narrow, 8, 32, &count, &depth), 0);
    IS(count, 4);
    IS(depth, 1);
    IS(corbastrigo_sanity_check_bits(two_prefixes, 35, 128, &count, &depth), 0);
    IS(count, 16);
    IS(depth, 1);
    IS(corbastrigo_sanity_check_stop_bits(two_prefixes, 35, 32, &reason, &place), 0);
    IS(reason, CORBASTRIGO_NO_BITS);
    IS(place, 72);
    IS(corbastrigo_sanity_check_stop_bits(two_narrow, 8, 32, &reason, &place), 0);
    IS(reason, 0);
    IS(place, 40);
    IS(corbastrigo_sanity_check_stop_bits(two_prefixes, 34, 128, &reason, &place), 0);
    IS(reason, CORBASTRIGO_CUT_OPERAND);
    IS(place, 256);
    IS(corbastrigo_sanity_check_stop_bits(cut_opcode, 1, 32, &reason, &place), 0);
    IS(reason, CORBASTRIGO_CUT_OPCODE);
    IS(place, 7);
}

static void walks_at_a_width(void) {
    const uint8_t address[4] = {3, 4, 0, 0}, zeros[4] = {0, 0, 0, 0};
    uint8_t wide[256 + 16] = {0}, kind = BEFORE(1), bits = BEFORE(4);
    uint32_t number = BEFORE(2), count = BEFORE(3);
    mapped(wide, 3, 4, 0, 0);
    /* the last two would be 4 and 16 if a length were cut to a byte */
    static const size_t lengths[] = {15, 17, 256 + 4, 256 + 16};
    for (size_t i = 0; i < sizeof lengths / sizeof *lengths; i++) {
        IS(corbastrigo_interpret_bits(two_narrow, 8, wide, lengths[i], 32, &kind, &number, &count, &bits), CORBASTRIGO_ADDRESS_LENGTH);
        IS(corbastrigo_interpret_bits(two_prefixes, 35, wide, lengths[i], 128, &kind, &number, &count, &bits), CORBASTRIGO_ADDRESS_LENGTH);
    }
    IS(corbastrigo_interpret_bits(two_narrow, 8, address, 3, 32, &kind, &number, &count, &bits), CORBASTRIGO_ADDRESS_LENGTH);
    IS(corbastrigo_interpret_bits(two_narrow, 8, wide, 16, 32, &kind, &number, &count, &bits), CORBASTRIGO_ADDRESS_LENGTH);
    IS(corbastrigo_interpret_bits(two_prefixes, 35, address, 4, 128, &kind, &number, &count, &bits), CORBASTRIGO_ADDRESS_LENGTH);
    IS(corbastrigo_interpret_bits(too_long, sizeof too_long, wide, 5, 32, &kind, &number, &count, &bits), CORBASTRIGO_ADDRESS_LENGTH);
    IS(corbastrigo_interpret_bits(too_long, sizeof too_long, wide, 4, 32, &kind, &number, &count, &bits), CORBASTRIGO_MAP_TOO_LONG);
    IS(kind, BEFORE(1));
    IS(number, BEFORE(2));
    IS(count, BEFORE(3));
    IS(bits, BEFORE(4));
    IS(corbastrigo_interpret_bits(two_narrow, 8, address, 4, 32, &kind, &number, &count, &bits), 0);
    IS(kind, CORBASTRIGO_RETURNED);
    IS(number, 2);
    IS(count, 3);
    IS(bits, 7);
    IS(corbastrigo_interpret_bits(two_prefixes, 35, wide, 16, 128, &kind, &number, &count, &bits), 0);
    IS(kind, CORBASTRIGO_RETURNED);
    IS(number, 2);
    IS(count, 15);
    IS(bits, 103);
    IS(corbastrigo_interpret_bits(two_prefixes, 35, zeros, 4, 32, &kind, &number, &count, &bits), 0);
    IS(kind, CORBASTRIGO_TOO_FEW_BITS);
    IS(number, 0);
    IS(count, 5);
    IS(bits, 32);
}

/* At 32 two_narrow has 4 instructions and 8 prefixes: 0.0.0.0/7, 2.0.0.0/7 and six that differ from the MATCH, the last 128.0.0.0/1. */
static void records_at_a_width(void) {
    static const uint8_t second[24] = {2, 0, 0, 0, 0, 0, 0, 0, 0, 0, 0, 0, 0, 0, 0, 0, 7, 0, 0, 0, 2, 0, 0, 0};
    uint8_t list[2500];
    size_t written = BEFORE(2), bytes = BEFORE(3);
    memset(list, BEFORE(1), sizeof list);
    IS(corbastrigo_unpack_bits(two_narrow, 8, 32, list, 63, &written), CORBASTRIGO_OUTPUT_TOO_SHORT);
    IS(corbastrigo_unpack_bits(two_prefixes, 35, 128, list, 255, &written), CORBASTRIGO_OUTPUT_TOO_SHORT);
    IS(corbastrigo_unpack_bits(two_prefixes, 35, 32, list, 256, &written), CORBASTRIGO_NO_BITS);
    IS(corbastrigo_list_bits(two_narrow, 8, 32, list, 191, &written), CORBASTRIGO_OUTPUT_TOO_SHORT);
    IS(corbastrigo_list_bits(two_prefixes, 35, 32, list, sizeof list, &written), CORBASTRIGO_NO_BITS);
    IS(corbastrigo_list_bytes_bits(two_prefixes, 35, 32, &bytes), CORBASTRIGO_NO_BITS);
    IS(untouched(list, sizeof list), sizeof list);
    IS(written, BEFORE(2));
    IS(bytes, BEFORE(3));
    IS(corbastrigo_unpack_bits(two_narrow, 8, 32, list, 65, &written), 0);
    IS(written, 4 * CORBASTRIGO_RECORD_BYTES);
    IS(list[16], CORBASTRIGO_JUMP);
    IS(untouched(list + 64, sizeof list - 64), sizeof list - 64);
    IS(corbastrigo_list_bytes_bits(two_narrow, 8, 32, &bytes), 0);
    IS(bytes, 8 * CORBASTRIGO_PREFIX_RECORD_BYTES);
    IS(corbastrigo_list_bits(two_narrow, 8, 32, list, 193, &written), 0);
    IS(written, 192);
    IS(memcmp(list + 24, second, 24), 0);
    IS(list[7 * 24], 0x80);
    IS(list[7 * 24 + 16], 1);
    IS(untouched(list + 192, sizeof list - 192), sizeof list - 192);
    IS(corbastrigo_unpack_bits(two_prefixes, 35, 128, list, 256, &written), 0);
    IS(written, 256);
    IS(corbastrigo_list_bytes_bits(two_prefixes, 35, 128, &bytes), 0);
    IS(bytes, 2496);
    IS(corbastrigo_list_bits(two_prefixes, 35, 128, list, sizeof list, &written), 0);
    IS(written, 2496);
    IS(list[103 * 24], 0x80);
    IS(untouched(list + 2496, 4), 4);
}

/* Of two_narrow's prefixes all but the first go elsewhere than the lone RETURN, from 2.0.0.0 on. */
static void comparisons_at_a_width(void) {
    static const uint8_t change[28] = {2, 0, 0, 0, 0, 0, 0, 0, 0, 0, 0, 0, 0, 0, 0, 0, 7, 0, 0, 0, 2, 0, 0, 0, 1, 0, 0, 0};
    uint8_t list[200], first[20];
    size_t written = BEFORE(2), bytes = BEFORE(3);
    memset(list, BEFORE(1), sizeof list);
    memset(first, BEFORE(1), sizeof first);
    IS(corbastrigo_compare_bits(two_narrow, 8, lone_return, 3, 32, list, 195, &written), CORBASTRIGO_OUTPUT_TOO_SHORT);
    IS(corbastrigo_compare_bytes_bits(two_narrow, 8, lone_return, 3, 32, first, 15, &bytes), CORBASTRIGO_OUTPUT_TOO_SHORT);
    IS(untouched(list, sizeof list), sizeof list);
    IS(untouched(first, sizeof first), sizeof first);
    IS(written, BEFORE(2));
    IS(bytes, BEFORE(3));
    IS(corbastrigo_compare_bytes_bits(two_narrow, 8, lone_return, 3, 32, first, sizeof first, &bytes), 0);
    IS(bytes, 7 * CORBASTRIGO_CHANGE_RECORD_BYTES);
    IS(memcmp(first, change, 16), 0);
    IS(untouched(first + 16, 4), 4);
    IS(corbastrigo_compare_bits(two_narrow, 8, lone_return, 3, 32, list, sizeof list, &written), 0);
    IS(written, 196);
    IS(memcmp(list, change, 28), 0);
    IS(list[6 * 28], 0x80);
    IS(untouched(list + 196, 4), 4);
    IS(corbastrigo_compare_bits(lone_return, 3, two_narrow, 8, 32, list, 196, &written), 0);
    IS(list[20], 1);
    IS(list[24], 2);
    IS(untouched(list + 196, 4), 4);
    IS(corbastrigo_compare_bits(lone_return, 3, two_prefixes, 35, 32, list, 196, &written), CORBASTRIGO_NEW_MAP + CORBASTRIGO_NO_BITS);
    IS(corbastrigo_compare_bits(two_prefixes, 35, two_prefixes, 35, 128, list, sizeof list, &written), 0);
    IS(written, 0);
    IS(corbastrigo_compare_bytes_bits(two_prefixes, 35, lone_return, 3, 128, first, 16, &bytes), 0);
    IS(bytes, 103 * CORBASTRIGO_CHANGE_RECORD_BYTES);
}

/* Each reason at a width: the maps of the list above are refused alike at both. */
static void refused_at_a_width(uint32_t width) {
    uint8_t list[28];
    uint32_t count = BEFORE(4);
    uint8_t depth = BEFORE(5);
    size_t written = BEFORE(2), bytes = BEFORE(3);
    memset(list, BEFORE(1), sizeof list);
    for (size_t i = 0; i < sizeof refused / sizeof *refused; i++) {
        const uint8_t *const map = refused[i].map, reason = refused[i].reason;
        const size_t len = refused[i].len;
        IS(corbastrigo_sanity_check_bits(map, len, width, &count, &depth), reason);
        IS(corbastrigo_unpack_bits(map, len, width, list, 0, &written), reason);
        IS(corbastrigo_list_bits(map, len, width, list, sizeof list, &written), reason);
        IS(corbastrigo_list_bytes_bits(map, len, width, &bytes), reason);
        IS(corbastrigo_compare_bits(map, len, lone_return, 3, width, list, sizeof list, &written), reason);
        IS(corbastrigo_compare_bits(lone_return, 3, map, len, width, list, 0, &written), CORBASTRIGO_NEW_MAP + reason);
        IS(corbastrigo_compare_bytes_bits(map, len, map, len, width, list, 16, &bytes), reason);
        IS(corbastrigo_compare_bytes_bits(lone_return, 3, map, len, width, list, 0, &bytes), CORBASTRIGO_NEW_MAP + reason);
    }
    IS(untouched(list, sizeof list), sizeof list);
    IS(written, BEFORE(2));
    IS(bytes, BEFORE(3));
    IS(count, BEFORE(4));
    IS(depth, BEFORE(5));
}

static void at_a_width(void) {
    for (size_t i = 0; i < sizeof no_widths / sizeof *no_widths; i++)
        no_width(no_widths[i]);
    checks_at_a_width();
    walks_at_a_width();
    records_at_a_width();
    comparisons_at_a_width();
    refused_at_a_width(CORBASTRIGO_IPV4_BITS);
    refused_at_a_width(CORBASTRIGO_ADDRESS_BITS);
}

static void groups(void) {
    uint8_t peer[20];
    uint64_t group = BEFORE(1);
    candidate(peer, 3, 4, 5, 6);
    IS(corbastrigo_prefix_group(peer, 19, &group), CORBASTRIGO_CANDIDATE);
    IS(corbastrigo_netgroup(peer, 21, 0, none, 0, &group), CORBASTRIGO_CANDIDATE);
    IS(corbastrigo_netgroup(peer, 20, 1, lone_jump, 1, &group), CORBASTRIGO_MAP_ENDS);
    for (size_t i = 0; i < sizeof refused / sizeof *refused; i++)
        IS(corbastrigo_netgroup(peer, 20, 1, refused[i].map, refused[i].len, &group), refused[i].reason);
    IS(corbastrigo_netgroup_unchecked(peer, 20, 1, too_long, sizeof too_long, &group), CORBASTRIGO_MAP_TOO_LONG);
    IS(group, BEFORE(1));
    IS(corbastrigo_netgroup_unchecked(peer, 20, 1, lone_jump, 1, &group), 0);
    IS(group, 0);
    IS(corbastrigo_prefix_group(peer, 20, &group), 0);
    IS(group, 772);
    IS(corbastrigo_netgroup(peer, 20, 1, two_prefixes, 35, &group), 0);
    IS(group, 2);
    IS(corbastrigo_netgroup(peer, 20, 0, two_prefixes, 35, &group), 0);
    IS(group, CORBASTRIGO_IPV4_GROUPS + 772);
    IS(corbastrigo_netgroup_unchecked(peer, 20, 255, two_prefixes, 35, &group), 0);
    IS(group, 2);
}

/* A candidate's group in every call that has one: the old number or the new. A pick of one and a page of one tell it too. */
static void numbered(const uint8_t *peer, uint64_t old_number, uint64_t new_number) {
    static selection *const selections[] = {old_pick, corbastrigo_select_diverse, corbastrigo_select_diverse_unchecked};
    static printing *const printings[] = {old_page, corbastrigo_page, corbastrigo_page_unchecked};
    uint64_t group = BEFORE(1), taken[1], instructions;
    size_t total, first, examined, written;
    uint16_t places[1];
    uint8_t out[25];
    char line[26];
    IS(corbastrigo_prefix_group(peer, 20, &group), 0);
    IS(group, old_number);
    IS(corbastrigo_netgroup(peer, 20, 0, NULL, 0, &group), 0);
    IS(group, new_number);
    group = BEFORE(1);
    IS(corbastrigo_netgroup_unchecked(peer, 20, 0, NULL, 0, &group), 0);
    IS(group, new_number);
    for (size_t i = 0; i < 3; i++) {
        const uint64_t number = i == 0 ? old_number : new_number;
        IS(selections[i](peer, 20, NULL, 0, 1, 0, NULL, 0, places, 1, taken, 1, &total, &first, &examined, &instructions), 0);
        IS(first, 1);
        IS(taken[0], number);
        IS(selections[i](peer, 20, &number, 1, 1, 0, NULL, 0, places, 1, taken, 1, &total, &first, &examined, &instructions), 0);
        IS(first, 0);
        IS(total, 1);
        IS(printings[i](peer, 20, 0, NULL, 0, out, sizeof out, &written), 0);
        snprintf(line, sizeof line, "%10llu      1  100.0\n", (unsigned long long)number);
        IS(memcmp(out, line, 25), 0);
    }
}

/* The edges of both numberings. An IPv4 address has the same new number in family 4 and mapped in family 6; with any bit before its four
 * bytes turned, it is mapped no more and has its first four bytes, by either numbering. */
static void numberings(void) {
    static const uint8_t edges[][2] = {{1, 2}, {0, 0}, {0, 255}, {255, 0}, {255, 255}};
    static const uint32_t prefixes[] = {0, 0x102, 0xffff, 0x10000, 0x1020000, 0x20010db8, 0xfffffffe, 0xffffffff};
    uint8_t peer[20];
    for (size_t i = 0; i < sizeof edges / sizeof *edges; i++) {
        const uint64_t old_number = 256u * edges[i][0] + edges[i][1];
        for (uint8_t last = 0; last < 2; last++) {
            candidate(peer, edges[i][0], edges[i][1], last, 255);
            numbered(peer, old_number, CORBASTRIGO_IPV4_GROUPS + old_number);
            peer[0] = 6;
            numbered(peer, 0, CORBASTRIGO_IPV4_GROUPS + old_number);
        }
    }
    for (size_t bit = 0; bit < 96; bit++) {
        const uint64_t number = bit < 32 ? UINT64_C(1) << (31 - bit) : 0;
        candidate(peer, 1, 2, 0, 0);
        peer[0] = 6;
        peer[2 + bit / 8] ^= (uint8_t)(0x80 >> bit % 8);
        numbered(peer, number, number);
    }
    for (size_t i = 0; i < sizeof prefixes / sizeof *prefixes; i++) {
        memset(peer, 0, sizeof peer);
        peer[0] = 6;
        for (int byte = 0; byte < 4; byte++)
            peer[2 + byte] = (uint8_t)(prefixes[i] >> (24 - 8 * byte));
        numbered(peer, prefixes[i], prefixes[i]);
    }
}

/* A scan that is done, and all that it writes. */
static void scanned(uint64_t group, const uint64_t *occupied, size_t len, uint8_t hit, size_t at, size_t count) {
    uint8_t found = BEFORE(1);
    size_t place = BEFORE(2), groups_read = BEFORE(3);
    IS(corbastrigo_scan_occupied(group, occupied, len, &found, &place, &groups_read), 0);
    IS(found, hit);
    IS(place, at);
    IS(groups_read, count);
}

/* Two of the six groups stand twice: the first place counts. The refused list has a hit at its first. */
static void scan(void) {
    static const uint64_t six[6] = {9, 7, 6, 7, 6, UINT64_MAX};
    static uint64_t many[CORBASTRIGO_MAX_CANDIDATES + 1];
    uint8_t found = BEFORE(1);
    size_t place = BEFORE(2), groups_read = BEFORE(3);
    for (size_t i = 0; i <= CORBASTRIGO_MAX_CANDIDATES; i++)
        many[i] = i + 1;
    IS(corbastrigo_scan_occupied(1, many, CORBASTRIGO_MAX_CANDIDATES + 1, &found, &place, &groups_read), CORBASTRIGO_TOO_MANY);
    IS(found, BEFORE(1));
    IS(place, BEFORE(2));
    IS(groups_read, BEFORE(3));
    scanned(9, six, 6, 1, 0, 1);
    scanned(7, six, 6, 1, 1, 2);
    scanned(6, six, 6, 1, 2, 3);
    scanned(UINT64_MAX, six, 6, 1, 5, 6);
    scanned(UINT64_MAX, six, 5, 0, 0, 5);
    scanned(0, six, 6, 0, 0, 6);
    scanned(9, six, 0, 0, 0, 0);
    scanned(CORBASTRIGO_MAX_CANDIDATES, many, CORBASTRIGO_MAX_CANDIDATES, 1, CORBASTRIGO_MAX_CANDIDATES - 1, CORBASTRIGO_MAX_CANDIDATES);
    scanned(CORBASTRIGO_MAX_CANDIDATES + 1, many, CORBASTRIGO_MAX_CANDIDATES, 0, 0, CORBASTRIGO_MAX_CANDIDATES);
}

/* A pick with each map that the check refuses: its reason, before the outputs are looked at, and nothing is written. */
static void refused_pick(void) {
    uint8_t peers[20];
    uint16_t places[1] = {BEFORE(1)};
    uint64_t taken[1] = {BEFORE(2)}, instructions = BEFORE(6);
    size_t total = BEFORE(3), first = BEFORE(4), examined = BEFORE(5);
    candidate(peers, 3, 4, 0, 1);
    for (size_t i = 0; i < sizeof refused / sizeof *refused; i++)
        for (size_t room = 0; room <= 1; room++)
            IS(corbastrigo_select_diverse(peers, 20, NULL, 0, 1, 1, refused[i].map, refused[i].len, places, room, taken, room, &total,
                                          &first, &examined, &instructions),
               refused[i].reason);
    IS(places[0], BEFORE(1));
    IS(taken[0], BEFORE(2));
    IS(total, BEFORE(3));
    IS(first, BEFORE(4));
    IS(examined, BEFORE(5));
    IS(instructions, BEFORE(6));
}

/* Four peers, two of group 2, one of 1, one of 0; group 0 is occupied, so the last is a fill. By their prefixes none is occupied. */
static void pick(selection *call, uint8_t of_a_refused_map) {
    uint8_t peers[80];
    const uint64_t occupied[2] = {9, 0};
    uint16_t places[4] = {BEFORE(1), BEFORE(1), BEFORE(1), BEFORE(1)};
    uint64_t taken[4] = {BEFORE(2), BEFORE(2), BEFORE(2), BEFORE(2)}, instructions = BEFORE(6);
    size_t total = BEFORE(3), first = BEFORE(4), examined = BEFORE(5);
    candidate(peers, 8, 8, 8, 8);
    candidate(peers + 20, 3, 4, 0, 1);
    candidate(peers + 40, 3, 4, 0, 2);
    candidate(peers + 60, 1, 2, 0, 1);
#define PICK(bytes, has_map, map, map_len, room, group_room)                                                                           \
    call(peers, bytes, occupied, 2, 3, has_map, map, map_len, places, room, taken, group_room, &total, &first, &examined, &instructions)
    IS(PICK(79, 1, two_prefixes, 35, 4, 4), CORBASTRIGO_CANDIDATE);
    IS(PICK(80, 1, two_prefixes, 35, 2, 3), CORBASTRIGO_OUTPUT_TOO_SHORT);
    IS(PICK(80, 1, two_prefixes, 35, 3, 2), CORBASTRIGO_OUTPUT_TOO_SHORT);
    IS(PICK(80, 1, too_long, sizeof too_long, 4, 4), CORBASTRIGO_MAP_TOO_LONG);
    IS(places[0], BEFORE(1));
    IS(taken[0], BEFORE(2));
    IS(total, BEFORE(3));
    IS(first, BEFORE(4));
    IS(examined, BEFORE(5));
    IS(instructions, BEFORE(6));
    IS(PICK(80, 1, two_prefixes, 35, 4, 4), 0);
    IS(total, 3);
    IS(first, 2);
    IS(examined, 4);
    IS(instructions, 13 + 15 + 15 + 15);
    IS(places[0], 1);
    IS(places[1], 3);
    IS(places[2], 0);
    IS(places[3], BEFORE(1));
    IS(taken[0], 2);
    IS(taken[1], 1);
    IS(taken[2], BEFORE(2));
    IS(PICK(80, 1, lone_jump, 1, 4, 4), of_a_refused_map);
    IS(PICK(80, 0, lone_jump, 1, 4, 4), 0);
    IS(first, 3);
    IS(instructions, 0);
    IS(taken[0], CORBASTRIGO_IPV4_GROUPS + 256 * 8 + 8);
#undef PICK
}

/* 1.2.0.1, 0:102:: and 1.2.0.1 mapped, which by the new numbering have two groups, and 3.4.0.1 mapped. By the old the first two share 258
 * and the mapped ones 0. */
static void make_mixed(uint8_t *peers) {
    candidate(peers, 1, 2, 0, 1);
    memset(peers + 20, 0, 20);
    peers[20] = 6;
    peers[24] = 1;
    peers[25] = 2;
    candidate(peers + 40, 1, 2, 0, 1);
    candidate(peers + 60, 3, 4, 0, 1);
    peers[40] = peers[60] = 6;
}

/* What the pick by the old numbering refuses, in its order, and that it has written nothing then. */
static void refused_old_pick(void) {
    static uint8_t many[20 * (CORBASTRIGO_MAX_CANDIDATES + 2)];
    static uint64_t occupied[CORBASTRIGO_MAX_CANDIDATES + 1];
    uint8_t peers[80];
    uint16_t places[4] = {BEFORE(1), BEFORE(1), BEFORE(1), BEFORE(1)};
    uint64_t taken[4] = {BEFORE(2), BEFORE(2), BEFORE(2), BEFORE(2)}, instructions = BEFORE(6);
    size_t total = BEFORE(3), first = BEFORE(4), examined = BEFORE(5);
#define PICK(from, bytes, groups, room, group_room)                                                                                    \
    corbastrigo_old_prefix_pick(from, bytes, occupied, groups, 3, places, room, taken, group_room, &total, &first, &examined, &instructions)
    make_mixed(peers);
    peers[60] = 5;
    IS(PICK(many, sizeof many - 1, 0, 0, 0), CORBASTRIGO_CANDIDATE);
    IS(PICK(peers, 79, CORBASTRIGO_MAX_CANDIDATES + 1, 0, 0), CORBASTRIGO_CANDIDATE);
    IS(PICK(many, sizeof many - 20, 0, 0, 0), CORBASTRIGO_TOO_MANY);
    IS(PICK(peers, 80, CORBASTRIGO_MAX_CANDIDATES + 1, 0, 0), CORBASTRIGO_TOO_MANY);
    IS(PICK(peers, 80, CORBASTRIGO_MAX_CANDIDATES, 0, 0), CORBASTRIGO_CANDIDATE);
    make_mixed(peers);
    peers[1] = 1;
    IS(PICK(peers, 80, 0, 4, 4), CORBASTRIGO_CANDIDATE);
    make_mixed(peers);
    peers[20] = 4;
    IS(PICK(peers, 80, 0, 4, 4), CORBASTRIGO_CANDIDATE);
    make_mixed(peers);
    IS(PICK(peers, 80, CORBASTRIGO_MAX_CANDIDATES, 2, 3), CORBASTRIGO_OUTPUT_TOO_SHORT);
    IS(PICK(peers, 80, CORBASTRIGO_MAX_CANDIDATES, 3, 2), CORBASTRIGO_OUTPUT_TOO_SHORT);
    for (size_t i = 0; i < 4; i++) {
        IS(places[i], BEFORE(1));
        IS(taken[i], BEFORE(2));
    }
    IS(total, BEFORE(3));
    IS(first, BEFORE(4));
    IS(examined, BEFORE(5));
    IS(instructions, BEFORE(6));
#undef PICK
}

/* The mixed peers by each numbering, with 772 occupied, which is nobody's group by either: three of the four by the new in the first pass, two
 * by the old and one to fill. */
static void mixed_pick(void) {
    uint8_t peers[80];
    const uint64_t occupied[2] = {9, 772};
    uint16_t places[4] = {BEFORE(1), BEFORE(1), BEFORE(1), BEFORE(1)};
    uint64_t taken[4] = {BEFORE(2), BEFORE(2), BEFORE(2), BEFORE(2)}, instructions = BEFORE(6);
    size_t total = BEFORE(3), first = BEFORE(4), examined = BEFORE(5);
    make_mixed(peers);
    IS(corbastrigo_old_prefix_pick(peers, 80, occupied, 2, 3, places, 4, taken, 4, &total, &first, &examined, &instructions), 0);
    IS(total, 3);
    IS(first, 2);
    IS(examined, 4);
    IS(instructions, 0);
    IS(places[0], 0);
    IS(places[1], 2);
    IS(places[2], 1);
    IS(places[3], BEFORE(1));
    IS(taken[0], 258);
    IS(taken[1], 0);
    IS(taken[2], BEFORE(2));
    IS(corbastrigo_select_diverse(peers, 80, occupied, 2, 3, 0, NULL, 0, places, 4, taken, 4, &total, &first, &examined, &instructions), 0);
    IS(first, 3);
    IS(places[1], 1);
    IS(places[2], 3);
    IS(taken[0], CORBASTRIGO_IPV4_GROUPS + 258);
    IS(taken[1], 258);
    IS(taken[2], CORBASTRIGO_IPV4_GROUPS + 772);
    IS(taken[3], BEFORE(2));
}

/* Six peers: by the map three of group 2, two of group 1, one of group 0; by their prefixes all but two are alone. */
static void make_six(uint8_t *peers) {
    candidate(peers, 3, 4, 0, 1);
    candidate(peers + 20, 8, 8, 8, 8);
    candidate(peers + 40, 1, 2, 0, 1);
    candidate(peers + 60, 3, 4, 0, 2);
    candidate(peers + 80, 0, 9, 0, 1);
    candidate(peers + 100, 2, 255, 0, 1);
}

/* What a page refuses, in its order, and that it has written nothing then. */
static void refused_page(printing *call, uint8_t checked) {
    static uint8_t many[20 * (CORBASTRIGO_MAX_CANDIDATES + 1)];
    uint8_t peers[120], out[150];
    size_t written = BEFORE(2);
    make_six(peers);
    memset(out, BEFORE(1), sizeof out);
    IS(call(peers, 119, 1, too_long, sizeof too_long, out, 0, &written), CORBASTRIGO_CANDIDATE);
    IS(call(many, sizeof many, 1, too_long, sizeof too_long, out, 0, &written), CORBASTRIGO_TOO_MANY);
    peers[100] = 5;
    IS(call(peers, 120, 1, too_long, sizeof too_long, out, 0, &written), CORBASTRIGO_CANDIDATE);
    peers[100] = 4;
    IS(call(peers, 120, 1, too_long, sizeof too_long, out, 0, &written), CORBASTRIGO_MAP_TOO_LONG);
    for (size_t i = 0; i < sizeof refused / sizeof *refused; i++)
        IS(call(peers, 120, 1, refused[i].map, refused[i].len, out, 0, &written),
           checked ? refused[i].reason : CORBASTRIGO_OUTPUT_TOO_SHORT);
    IS(call(peers, 120, 1, two_prefixes, 35, out, 74, &written), CORBASTRIGO_OUTPUT_TOO_SHORT);
    IS(call(peers, 120, 0, two_prefixes, 35, out, 124, &written), CORBASTRIGO_OUTPUT_TOO_SHORT);
    IS(untouched(out, sizeof out), sizeof out);
    IS(written, BEFORE(2));
}

/* What the page by the old numbering refuses, in its order, and that it has written nothing then. The mixed peers have two old groups. */
static void refused_old_page(void) {
    static uint8_t many[20 * (CORBASTRIGO_MAX_CANDIDATES + 2)];
    uint8_t peers[80], out[100];
    size_t written = BEFORE(2);
    make_mixed(peers);
    memset(out, BEFORE(1), sizeof out);
    IS(corbastrigo_old_prefix_page(many, sizeof many - 1, out, 0, &written), CORBASTRIGO_CANDIDATE);
    IS(corbastrigo_old_prefix_page(many, sizeof many - 20, out, 0, &written), CORBASTRIGO_TOO_MANY);
    for (size_t place = 0; place < 80; place += 20) {
        make_mixed(peers);
        peers[place] = 5;
        IS(corbastrigo_old_prefix_page(peers, 80, out, 0, &written), CORBASTRIGO_CANDIDATE);
    }
    make_mixed(peers);
    IS(corbastrigo_old_prefix_page(peers, 80, out, 0, &written), CORBASTRIGO_OUTPUT_TOO_SHORT);
    IS(corbastrigo_old_prefix_page(peers, 80, out, 49, &written), CORBASTRIGO_OUTPUT_TOO_SHORT);
    IS(untouched(out, sizeof out), sizeof out);
    IS(written, BEFORE(2));
}

/* The mixed peers by each numbering, with room behind their lines. */
static void mixed_page(void) {
    uint8_t peers[80], out[100];
    size_t written = BEFORE(2);
    make_mixed(peers);
    memset(out, BEFORE(1), sizeof out);
    IS(corbastrigo_old_prefix_page(peers, 80, out, sizeof out, &written), 0);
    IS(written, 50);
    IS(memcmp(out, "         0      2   50.0\n       258      2   50.0\n", 50), 0);
    IS(untouched(out + 50, 50), 50);
    IS(corbastrigo_page(peers, 80, 0, NULL, 0, out, sizeof out, &written), 0);
    IS(written, 75);
    IS(memcmp(out, "       258      1   25.0\n4294967554      2   50.0\n4294968068      1   25.0\n", 75), 0);
    IS(untouched(out + 75, 25), 25);
}

/* The six peers with a map, and none of them. */
static void page_by_map(printing *call) {
    static const char by_map[] = "         0      1   16.7\n         1      2   33.3\n         2      3   50.0\n";
    uint8_t peers[120], out[150];
    size_t written = BEFORE(2);
    make_six(peers);
    memset(out, BEFORE(1), sizeof out);
    IS(call(peers, 0, 1, two_prefixes, 35, out, sizeof out, &written), 0);
    IS(written, 0);
    IS(untouched(out, sizeof out), sizeof out);
    IS(call(peers, 120, 1, two_prefixes, 35, out, 75, &written), 0);
    IS(written, 3 * CORBASTRIGO_PAGE_LINE_BYTES);
    IS(memcmp(out, by_map, 75), 0);
    IS(untouched(out + 75, 75), 75);
}

/* The lines of groups that are so much more than `from`, with their candidates and per cents. */
static void lines(char *text, uint64_t from, const unsigned *groups, const char *const *shares, size_t count) {
    for (size_t i = 0; i < count; i++)
        sprintf(text + 25 * i, "%10llu %s\n", (unsigned long long)(from + groups[i]), shares[i]);
}

/* The six peers without a map, and none of them; then one of 16, an exact half. All are of family 4, whose groups count from `from`: 0 by
 * the old numbering. */
static void page_by_prefixes(printing *call, uint64_t from) {
    static const unsigned groups[] = {9, 258, 767, 772, 2056}, two[] = {4, 260};
    static const char *const shares[] = {"     1   16.7", "     1   16.7", "     1   16.7", "     2   33.3", "     1   16.7"};
    static const char *const halves[] = {"    15   93.8", "     1    6.3"};
    uint8_t peers[320], out[150];
    char text[126];
    size_t written = BEFORE(2);
    make_six(peers);
    memset(out, BEFORE(1), sizeof out);
    IS(call(peers, 0, 0, none, 0, out, sizeof out, &written), 0);
    IS(written, 0);
    IS(untouched(out, sizeof out), sizeof out);
    IS(call(peers, 120, 0, two_prefixes, 35, out, sizeof out, &written), 0);
    IS(written, 5 * CORBASTRIGO_PAGE_LINE_BYTES);
    lines(text, from, groups, shares, 5);
    IS(memcmp(out, text, 125), 0);
    IS(untouched(out + 125, 25), 25);
    for (uint8_t i = 0; i < 16; i++)
        candidate(peers + 20 * i, i == 9, 4, 0, i);
    IS(call(peers, 320, 0, none, 0, out, 50, &written), 0);
    IS(written, 50);
    lines(text, from, two, halves, 2);
    IS(memcmp(out, text, 50), 0);
}

/* As many candidates as there may be, each in a group of its own and then all in one, of an IPv6 prefix that fills its columns. */
static void full_page(printing *call, uint64_t from) {
    static uint8_t peers[20 * CORBASTRIGO_MAX_CANDIDATES], out[CORBASTRIGO_PAGE_LINE_BYTES * CORBASTRIGO_MAX_CANDIDATES];
    static const unsigned groups[] = {0, 1, CORBASTRIGO_MAX_CANDIDATES - 1};
    static const char *const shares[] = {"     1    0.0", "     1    0.0", "     1    0.0"};
    char text[76];
    size_t written = BEFORE(2);
    lines(text, from, groups, shares, 3);
    for (size_t i = 0; i < CORBASTRIGO_MAX_CANDIDATES; i++)
        candidate(peers + 20 * i, (uint8_t)(i >> 8), (uint8_t)~i, 0, 1);
    IS(call(peers, sizeof peers, 0, none, 0, out, sizeof out, &written), 0);
    IS(written, sizeof out);
    IS(memcmp(out, text, 50), 0);
    IS(memcmp(out + sizeof out - 25, text + 50, 25), 0);
    memset(peers, 0xff, sizeof peers);
    for (size_t i = 0; i < sizeof peers; i += 20) {
        peers[i] = 6;
        peers[i + 1] = 0;
    }
    IS(call(peers, sizeof peers, 0, none, 0, out, 25, &written), 0);
    IS(written, 25);
    IS(memcmp(out, "4294967295   4096  100.0\n", 25), 0);
}

/* A page of a map that only the check refuses: every walk of a lone JUMP aborts. */
static void aborted_page(void) {
    uint8_t peers[120], out[26];
    size_t written = BEFORE(2);
    make_six(peers);
    memset(out, BEFORE(1), sizeof out);
    IS(corbastrigo_page_unchecked(peers, 120, 255, lone_jump, 1, out, sizeof out, &written), 0);
    IS(written, 25);
    IS(memcmp(out, "         0      6  100.0\n", 25), 0);
    IS(out[25], BEFORE(1));
}

static void filters(void) {
    uint8_t address[16], answer = BEFORE(1);
    mapped(address, 10, 0, 0, 1);
    IS(corbastrigo_clearnet_unroutable(address, 4, &answer), CORBASTRIGO_ADDRESS_LENGTH);
    IS(corbastrigo_addrv2_skip_relay(1, address, 16, 8333, &answer), CORBASTRIGO_RELAY_LENGTH);
    IS(answer, BEFORE(1));
    IS(corbastrigo_clearnet_unroutable(address, 16, &answer), 0);
    IS(answer, 1);
    IS(corbastrigo_addrv2_skip_relay(1, address + 12, 4, 8333, &answer), 0);
    IS(answer, 1);
    mapped(address, 11, 0, 0, 1);
    IS(corbastrigo_clearnet_unroutable(address, 16, &answer), 0);
    IS(answer, 0);
    answer = BEFORE(1);
    IS(corbastrigo_addrv2_skip_relay(1, address + 12, 4, 8333, &answer), 0);
    IS(answer, 0);
    IS(corbastrigo_addrv2_skip_relay(1, address + 12, 4, 0, &answer), 0);
    IS(answer, 1);
}

/* A draw by its definition, in plain arithmetic of 64 bits. */
static uint64_t drawn(uint64_t s) {
    s ^= s * 8192;
    s ^= s / 128;
    s ^= s * 131072;
    return s;
}

/* The first draws from 1; then each of a thousand is that of the definition, none is 0, and so none is refused. */
static void draws(void) {
    static const uint64_t first[] = {UINT64_C(1082269761), UINT64_C(1152992998833853505), UINT64_C(11177516664432764457),
                                     UINT64_C(17678023832001937445), UINT64_C(9659130143999365733)};
    static const uint64_t seeds[] = {2, 127, 128, UINT64_C(1) << 32, UINT64_C(1) << 47, UINT64_C(1) << 51, UINT64_C(1) << 63, UINT64_MAX};
    uint64_t draw = BEFORE(1), s = CORBASTRIGO_DEFAULT_SEED;
    IS(corbastrigo_next_draw(0, &draw), CORBASTRIGO_LOAD);
    IS(draw, BEFORE(1));
    for (size_t i = 0; i < 1000; i++, s = draw) {
        IS(corbastrigo_next_draw(s, &draw), 0);
        IS(draw, i < 5 ? first[i] : drawn(s));
        IS(draw == 0, 0);
    }
    for (size_t i = 0; i < sizeof seeds / sizeof *seeds; i++) {
        IS(corbastrigo_next_draw(seeds[i], &draw), 0);
        IS(draw, drawn(seeds[i]));
    }
}

/* A load that is made here, bit by bit, and the address that walks through all of it. */
static struct {
    uint8_t bytes[CORBASTRIGO_LOAD_BYTES], address[16];
    size_t bits;
} made;

/* So many bits of a number, the highest first. */
static void add(unsigned bits, uint64_t number) {
    for (; bits > 0; bits--, made.bits++)
        made.bytes[made.bits / 8] |= (uint8_t)((number >> (bits - 1) & 1) << made.bits % 8);
}

/* The number 1 + below: up to 32,768 a 0 and 15 bits, above a 1, a 0 and 16 bits. */
static void add_number(uint64_t below) {
    if (below < 32768)
        add(16, below);
    else
        add(18, UINT64_C(1) << 17 | (below - 32768));
}

/* Makes a load here and says how many bytes it has: DEFAULT is 111, MATCH 110 and, of one bit, a 0 in front of it, RETURN 0. */
static size_t make_load(uint64_t seed, size_t pairs) {
    uint64_t s = seed;
    memset(&made, 0, sizeof made);
    for (size_t i = 0; i < pairs; i++) {
        s = drawn(s);
        add(3, 7);
        add_number(s % 65536);
        s = drawn(s);
        add(5, 24 + s % 2);
        made.address[i / 8] |= (uint8_t)(s % 2 << (7 - i % 8));
    }
    s = drawn(s);
    add(1, 0);
    add_number(s % 65536);
    return (made.bits + 7) / 8;
}

/* What a load refuses: the seed and the pairs before the output's length, and nothing is written. Among the pairs are numbers that would
 * be fewer if they were cut. */
static void refused_loads(void) {
    static const size_t too_many[] = {129, 256, 256 + 2, 65536, UINT32_MAX, (size_t)UINT32_MAX + 1, SIZE_MAX / 2 + 1, SIZE_MAX};
    uint8_t out[CORBASTRIGO_LOAD_BYTES];
    size_t written = BEFORE(2);
    memset(out, BEFORE(1), sizeof out);
    for (size_t room = 0; room <= sizeof out; room += sizeof out) {
        for (size_t pairs = 0; pairs <= CORBASTRIGO_MAX_PAIRS; pairs++)
            IS(corbastrigo_load(0, pairs, out, room, &written), CORBASTRIGO_LOAD);
        for (size_t i = 0; i < sizeof too_many / sizeof *too_many; i++) {
            IS(corbastrigo_load(0, too_many[i], out, room, &written), CORBASTRIGO_LOAD);
            IS(corbastrigo_load(CORBASTRIGO_DEFAULT_SEED, too_many[i], out, room, &written), CORBASTRIGO_LOAD);
            IS(corbastrigo_load(UINT64_MAX, too_many[i], out, room, &written), CORBASTRIGO_LOAD);
        }
    }
    for (size_t pairs = 0; pairs <= CORBASTRIGO_MAX_PAIRS; pairs++) {
        IS(corbastrigo_load(1, pairs, out, 0, &written), CORBASTRIGO_OUTPUT_TOO_SHORT);
        IS(corbastrigo_load(1, pairs, out, make_load(1, pairs) - 1, &written), CORBASTRIGO_OUTPUT_TOO_SHORT);
    }
    IS(untouched(out, sizeof out), sizeof out);
    IS(written, BEFORE(2));
}

/* A load in an output of just its length, and in a longer one, whose rest remains; then it is checked, and walked through by its address. */
static void load(uint64_t seed, size_t pairs) {
    const size_t len = make_load(seed, pairs);
    uint8_t out[CORBASTRIGO_LOAD_BYTES + 8], depth = BEFORE(1), kind = BEFORE(1), bits = BEFORE(1);
    uint32_t count = BEFORE(2), number = BEFORE(2);
    for (size_t room = len; room <= sizeof out; room += sizeof out - len) {
        size_t written = BEFORE(3);
        memset(out, BEFORE(1), sizeof out);
        IS(corbastrigo_load(seed, pairs, out, room, &written), 0);
        IS(written, len);
        IS(memcmp(out, made.bytes, len), 0);
        IS(untouched(out + len, sizeof out - len), sizeof out - len);
    }
    IS(corbastrigo_sanity_check(out, len, &count, &depth), 0);
    IS(count, 2 * pairs + 1);
    IS(depth, 0);
    IS(corbastrigo_sanity_check_bits(out, len, CORBASTRIGO_IPV4_BITS, &count, &depth), pairs <= 32 ? 0 : CORBASTRIGO_NO_BITS);
    IS(corbastrigo_interpret(out, len, made.address, 16, &kind, &number, &count, &bits), 0);
    IS(kind, CORBASTRIGO_RETURNED);
    IS(count, 2 * pairs + 1);
    IS(bits, pairs);
}

/* Loads of every number of pairs, and of seeds whose parts are 0 if they are cut. */
static void loads(void) {
    static const uint8_t two_pairs[9] = {0x27, 0x10, 0x9c, 0x27, 0xa3, 0x9c, 0x42, 0x32, 0x05};
    static const uint64_t seeds[] = {2, 128, UINT64_C(1) << 32, UINT64_C(1) << 63, UINT64_MAX};
    IS(make_load(1, 2), 9);
    IS(memcmp(made.bytes, two_pairs, 9), 0);
    for (size_t pairs = 0; pairs <= CORBASTRIGO_MAX_PAIRS; pairs++)
        load(CORBASTRIGO_DEFAULT_SEED, pairs);
    for (size_t i = 0; i < sizeof seeds / sizeof *seeds; i++)
        for (size_t pairs = 0; pairs <= CORBASTRIGO_MAX_PAIRS; pairs += 64)
            load(seeds[i], pairs);
}

/* Whether an address lies in the prefix of a record. */
static int lies_in(const uint8_t *address, const uint8_t *record) {
    const unsigned whole = record[16] / 8, rest = record[16] % 8;
    return memcmp(address, record, whole) == 0 && (rest == 0 || (address[whole] ^ record[whole]) >> (8 - rest) == 0);
}

/* The walk by an address ends at a RETURN with the number of its record, or with the given one. */
static void walks_to(const uint8_t *map, size_t len, const uint8_t *address, const uint8_t *records, size_t count, uint32_t given,
                     uint32_t width) {
    uint8_t kind = BEFORE(1), bits = BEFORE(4);
    uint32_t number = BEFORE(2), instructions = BEFORE(3), wanted = given;
    for (size_t i = 0; i < count; i++)
        if (lies_in(address, records + 24 * i))
            wanted = listed_number(records + 24 * i);
    IS(corbastrigo_interpret_bits(map, len, address, width / 8, width, &kind, &number, &instructions, &bits), 0);
    IS(kind, CORBASTRIGO_RETURNED);
    IS(number, wanted);
    IS(instructions, bits + 1);
}

/* The address one further up, or down where `by` is 0xff; behind the last comes the first. */
static void step(uint8_t *address, uint32_t width, uint8_t by) {
    const uint8_t turned = by == 1 ? 0 : 0xff;
    for (size_t i = width / 8; i-- > 0;) {
        address[i] = (uint8_t)(address[i] + by);
        if (address[i] != turned)
            return;
    }
}

/* The walks by the first and the last address of a record, and by those next to it on either side. */
static void walks_around(const uint8_t *map, size_t len, size_t place, const uint8_t *records, size_t count, uint32_t given,
                         uint32_t width) {
    uint8_t address[16];
    memcpy(address, records + 24 * place, 16);
    walks_to(map, len, address, records, count, given, width);
    step(address, width, 0xff);
    walks_to(map, len, address, records, count, given, width);
    memcpy(address, records + 24 * place, 16);
    for (unsigned bit = records[24 * place + 16]; bit < width; bit++)
        address[bit / 8] |= (uint8_t)(0x80 >> bit % 8);
    walks_to(map, len, address, records, count, given, width);
    step(address, width, 1);
    walks_to(map, len, address, records, count, given, width);
}

/* The map of records is the one made here, in an output of just its length and in a longer one, whose rest remains; it is accepted, and
 * addresses walk to their numbers. */
static void build(const uint8_t *records, size_t count, uint32_t given, uint32_t width) {
    static uint8_t out[MOST_BITS / 8 + 8];
    const size_t len = make_built(records, count, given);
    uint32_t instructions = BEFORE(1);
    uint8_t depth = BEFORE(2);
    for (size_t room = len; room <= len + 8; room += 8) {
        size_t written = BEFORE(3);
        memset(out, BEFORE(1), len + 8);
        IS(corbastrigo_build(records, 24 * count, given, width, out, room, &written), 0);
        IS(written, len);
        IS(memcmp(out, built.bytes, len), 0);
        IS(untouched(out + len, 8), 8);
    }
    IS(corbastrigo_sanity_check_bits(out, len, width, &instructions, &depth), 0);
    IS(instructions % 2, 1);
    for (size_t i = 0; i < count; i++)
        walks_around(out, len, i, records, count, given, width);
}

/* A map worked out by hand of at most three records. */
static void by_hand(const uint8_t *records, size_t count, uint32_t given, const uint8_t *map, size_t len) {
    for (uint32_t width = 32; width <= 128; width += 96) {
        IS(make_built(records, count, given), len);
        IS(memcmp(built.bytes, map, len), 0);
        build(records, count, given, width);
    }
}

/* A RETURN of 1 has 17 zeros; one of 2 ends with 1, one of 7 with 110; that of the greatest number has 33 ones behind its zero. A JUMP over one
 * of 17 bits has the byte 01, over 42 bits 99. */
static void built_by_hand(void) {
    static const uint8_t two[3] = {0x00, 0x00, 0x01}, seven[3] = {0x00, 0xc0, 0x00}, greatest[5] = {0xfe, 0xff, 0xff, 0xff, 0x03};
    static const uint8_t half_zero[6] = {0x01, 0x00, 0x00, 0x01, 0x00, 0x00}, half_one[6] = {0x01, 0x00, 0x00, 0x00, 0x00, 0x02};
    static const uint8_t second_quarter[9] = {0x99, 0x01, 0x00, 0x00, 0x00, 0x00, 0x02, 0x00, 0x00};
    static const uint8_t seven_and_two[6] = {0x01, 0x00, 0xc0, 0x00, 0x00, 0x02};
    uint8_t records[72];
    by_hand(none, 0, 1, lone_return, 3);
    by_hand(none, 0, 7, seven, 3);
    by_hand(none, 0, 33521664, greatest, 5);
    listed(records, 0, 0, 7);
    by_hand(records, 1, 2, seven, 3);
    listed(records, 0, 1, 2);
    by_hand(records, 1, 1, half_zero, 6);
    listed(records, 0x80000000, 1, 2);
    by_hand(records, 1, 1, half_one, 6);
    listed(records, 0x40000000, 2, 2);
    by_hand(records, 1, 1, second_quarter, 9);
    /* A record of the given number tells nothing apart. */
    by_hand(records, 1, 2, two, 3);
    /* Two neighbours of one number join; with a third, or with gaps of the given number, up to a lone RETURN. */
    listed(records, 0, 2, 7);
    listed(records + 24, 0x40000000, 2, 7);
    listed(records + 48, 0x80000000, 1, 2);
    by_hand(records, 3, 1, seven_and_two, 6);
    by_hand(records, 2, 2, seven_and_two, 6);
    by_hand(records, 2, 7, seven, 3);
    /* A gap joins the record next to it. */
    listed(records + 24, 0x80000000, 1, 2);
    by_hand(records, 2, 7, seven_and_two, 6);
}

/* Records that are drawn: rising, and none in another. */
#define MOST_RECORDS 48
static struct {
    uint8_t records[24 * MOST_RECORDS], address[16];
    size_t count;
    uint64_t s;
} list;

/* A record below so many bits of the address, of one of three numbers, so that neighbours often join, and now and then of one of many. */
static void draw_record(unsigned depth) {
    uint8_t *const record = list.records + 24 * list.count;
    const uint64_t draw = list.s = drawn(list.s);
    if (list.count == MOST_RECORDS)
        return;
    listed(record, 0, (uint8_t)depth, draw % 4 < 3 ? 1 + draw % 4 : 1 + draw / 4 % 33521664);
    memcpy(record, list.address, 16);
    list.count++;
}

/* What lies below so many bits of the address: a record, a gap, or two halves, of which mostly only one is gone on with. */
static void draw_below(unsigned depth, unsigned width) {
    const uint64_t draw = list.s = drawn(list.s);
    const int both = draw % 32 < 6;
    if (depth == width || draw % 32 == 31)
        draw_record(depth);
    else if (draw % 32 < 30 && list.count < MOST_RECORDS)
        for (unsigned bit = 0; bit < 2; bit++) {
            list.address[depth / 8] |= (uint8_t)(bit << (7 - depth % 8));
            if (both || draw / 32 % 2 == bit)
                draw_below(depth + 1, width);
            else if (draw / 64 % 2)
                draw_record(depth + 1);
            list.address[depth / 8] &= (uint8_t)~(0x80 >> depth % 8);
        }
}

/* Maps of drawn records, and of records at the last bit, at both widths; among the given numbers one that records have too. */
static void builds(void) {
    static const uint32_t givens[] = {1, 2, 65536, 33521664};
    uint8_t record[24];
    size_t most = 0;
    list.s = CORBASTRIGO_DEFAULT_SEED;
    for (size_t i = 0; i < 48; i++) {
        const uint32_t width = i % 2 == 0 ? 32 : 128;
        list.count = 0;
        memset(list.address, 0, sizeof list.address);
        draw_below(0, width);
        build(list.records, list.count, givens[i / 2 % 4], width);
        most = list.count > most ? list.count : most;
    }
    IS(most > MOST_RECORDS / 2, 1);
    for (uint32_t width = 32; width <= 128; width += 96)
        for (unsigned last = 0; last < 2; last++) {
            listed(record, last ? 0xffffffff : 0, (uint8_t)width, 3);
            memset(record + 4, last && width == 128 ? 0xff : 0, 12);
            build(record, 1, 1, width);
        }
}

/* Three records whose prefixes and numbers are right. */
static void make_three(uint8_t *records) {
    listed(records, 0x0a000000, 8, 1);
    listed(records + 24, 0x0b000000, 9, 33521664);
    listed(records + 48, 0xc0000200, 24, 3);
}

/* A build that is refused for its records, whatever the given number and the output are; nothing is written. */
static void refused_build(const uint8_t *records, size_t bytes, uint32_t width, int reason) {
    uint8_t out[64];
    size_t written = BEFORE(2);
    memset(out, BEFORE(1), sizeof out);
    IS(corbastrigo_build(records, bytes, 5, width, out, sizeof out, &written), reason);
    IS(corbastrigo_build(records, bytes, 5, width, out, 0, &written), reason);
    IS(corbastrigo_build(records, bytes, 0, width, out, sizeof out, &written), reason);
    IS(corbastrigo_build(records, bytes, 33521665, width, out, 0, &written), reason);
    IS(untouched(out, sizeof out), sizeof out);
    IS(written, BEFORE(2));
}

/* Each prefix that is wrong by itself, in each of the three records: longer than the width, ones past it, wrong zeros. Its number may be
 * wrong too: the prefix comes first. */
static void wrong_prefixes(uint32_t width) {
    static const uint8_t lengths[3] = {8, 9, 24};
    uint8_t records[72];
    for (size_t place = 0; place < 3; place++)
        for (uint32_t number = 0; number < 2; number++) {
            uint8_t *const record = records + 24 * place;
            make_three(records);
            if (number == 0)
                memset(record + 20, 0, 4);
            for (unsigned length = width + 1; length <= 255; length += length < 250 ? 6 : 1) {
                record[16] = (uint8_t)length;
                refused_build(records, 72, width, CORBASTRIGO_PREFIX);
            }
            record[16] = lengths[place];
            for (unsigned bit = lengths[place]; bit < 160; bit++)
                if (bit / 8 != 16) {
                    record[bit / 8] ^= (uint8_t)(0x80 >> bit % 8);
                    refused_build(records, 72, width, CORBASTRIGO_PREFIX);
                    record[bit / 8] ^= (uint8_t)(0x80 >> bit % 8);
                }
        }
}

/* Two records of prefixes of four bytes: whether they rise and do not overlap. */
static void two_records(uint32_t first, uint8_t first_length, uint32_t second, uint8_t second_length, int reason) {
    uint8_t records[48];
    for (uint32_t width = 32; width <= 128; width += 96) {
        listed(records, first, first_length, 2);
        listed(records + 24, second, second_length, 2);
        if (reason == 0)
            build(records, 2, 1, width);
        else
            refused_build(records, 48, width, reason);
    }
}

/* In order, and out of it; in each other, the same, and next to each other. An address alone is its prefix's first and last. */
static void orders(void) {
    uint8_t records[48];
    for (uint32_t width = 32; width <= 128; width += 96) {
        listed(records, 0x0affffff, (uint8_t)width, 2);
        memcpy(records + 24, records, 24);
        refused_build(records, 48, width, CORBASTRIGO_PREFIX);
        listed(records + 24, 0x0b000000, (uint8_t)width, 2);
        build(records, 2, 1, width);
    }
    two_records(0x0a000000, 8, 0x0b000000, 8, 0);
    two_records(0x0b000000, 8, 0x0a000000, 8, CORBASTRIGO_PREFIX);
    two_records(0x0a000000, 8, 0x0a000000, 8, CORBASTRIGO_PREFIX);
    two_records(0x0a000000, 8, 0x0a000000, 9, CORBASTRIGO_PREFIX);
    two_records(0x0a000000, 9, 0x0a000000, 8, CORBASTRIGO_PREFIX);
    two_records(0x0a000000, 8, 0x0affffff, 32, CORBASTRIGO_PREFIX);
    two_records(0x0affffff, 32, 0x0a000000, 8, CORBASTRIGO_PREFIX);
    two_records(0x0affffff, 32, 0x0b000000, 32, 0);
    two_records(0x7fffffff, 32, 0x80000000, 1, 0);
    two_records(0, 0, 0, 32, CORBASTRIGO_PREFIX);
    two_records(0, 0, 0xffffffff, 32, CORBASTRIGO_PREFIX);
    two_records(0, 32, 0, 0, CORBASTRIGO_PREFIX);
    /* Behind the last address none can follow. */
    two_records(0x80000000, 1, 0, 32, CORBASTRIGO_PREFIX);
    two_records(0xffffffff, 32, 0, 1, CORBASTRIGO_PREFIX);
}

/* Numbers that are none in a map: in each record, and as the given one, which comes after them. */
static void wrong_numbers(uint32_t width) {
    static const uint32_t wrong[] = {0, 33521665, 33554432, UINT32_C(1) << 31, UINT32_MAX};
    uint8_t records[72], out[64];
    size_t written = BEFORE(2);
    memset(out, BEFORE(1), sizeof out);
    for (size_t i = 0; i < sizeof wrong / sizeof *wrong; i++) {
        for (size_t place = 0; place < 3; place++) {
            make_three(records);
            for (unsigned byte = 0; byte < 4; byte++)
                records[24 * place + 20 + byte] = (uint8_t)(wrong[i] >> 8 * byte);
            refused_build(records, 72, width, CORBASTRIGO_NUMBER);
            /* What is wrong behind it is not come to, and what is wrong before it is. */
            records[48 + 17] = 1;
            refused_build(records, 72, width, place < 2 ? CORBASTRIGO_NUMBER : CORBASTRIGO_PREFIX);
            records[17] = 1;
            refused_build(records, 72, width, CORBASTRIGO_PREFIX);
        }
        make_three(records);
        for (size_t room = 0; room <= sizeof out; room += sizeof out) {
            IS(corbastrigo_build(records, 72, wrong[i], width, out, room, &written), CORBASTRIGO_NUMBER);
            IS(corbastrigo_build(none, 0, wrong[i], width, out, room, &written), CORBASTRIGO_NUMBER);
        }
    }
    IS(untouched(out, sizeof out), sizeof out);
    IS(written, BEFORE(2));
}

/* What else a build refuses, in its order: the width, the length, then, behind the records and the given number, the output. */
static void refused_builds(void) {
    static const size_t lengths[] = {1, 23, 25, 47, 71};
    uint8_t records[72], out[512];
    size_t written = BEFORE(2);
    make_three(records);
    memset(out, BEFORE(1), sizeof out);
    for (size_t i = 0; i < sizeof no_widths / sizeof *no_widths; i++) {
        refused_build(records, 72, no_widths[i], CORBASTRIGO_WIDTH);
        refused_build(records, 71, no_widths[i], CORBASTRIGO_WIDTH);
        refused_build(too_long, 24, no_widths[i], CORBASTRIGO_WIDTH);
    }
    for (uint32_t width = 32; width <= 128; width += 96) {
        const size_t len = make_built(records, 3, 5);
        for (size_t i = 0; i < sizeof lengths / sizeof *lengths; i++) {
            refused_build(records, lengths[i], width, CORBASTRIGO_PREFIX);
            refused_build(too_long, lengths[i], width, CORBASTRIGO_PREFIX);
        }
        wrong_prefixes(width);
        wrong_numbers(width);
        IS(corbastrigo_build(records, 72, 5, width, out, len - 1, &written), CORBASTRIGO_OUTPUT_TOO_SHORT);
        IS(corbastrigo_build(records, 72, 5, width, out, 0, &written), CORBASTRIGO_OUTPUT_TOO_SHORT);
        IS(corbastrigo_build(none, 0, 5, width, out, 2, &written), CORBASTRIGO_OUTPUT_TOO_SHORT);
        IS(untouched(out, sizeof out), sizeof out);
        IS(written, BEFORE(2));
        build(records, 3, 5, width);
    }
    orders();
}

int main(void) {
    codes();
    check();
    stop();
    walk();
    kinds();
    too_few_bits();
    records();
    refused_records();
    refused_lists();
    lists();
    refused_comparisons();
    comparisons();
    comparison_bytes();
    at_a_width();
    groups();
    numberings();
    scan();
    refused_pick();
    pick(corbastrigo_select_diverse, CORBASTRIGO_MAP_ENDS);
    pick(corbastrigo_select_diverse_unchecked, 0);
    refused_old_pick();
    mixed_pick();
    refused_page(corbastrigo_page, 1);
    refused_page(corbastrigo_page_unchecked, 0);
    refused_old_page();
    mixed_page();
    page_by_map(corbastrigo_page);
    page_by_map(corbastrigo_page_unchecked);
    page_by_prefixes(corbastrigo_page, CORBASTRIGO_IPV4_GROUPS);
    page_by_prefixes(corbastrigo_page_unchecked, CORBASTRIGO_IPV4_GROUPS);
    page_by_prefixes(old_page, 0);
    full_page(corbastrigo_page, CORBASTRIGO_IPV4_GROUPS);
    full_page(corbastrigo_page_unchecked, CORBASTRIGO_IPV4_GROUPS);
    full_page(old_page, 0);
    aborted_page();
    filters();
    draws();
    refused_loads();
    loads();
    built_by_hand();
    builds();
    refused_builds();
    printf("calls from C: %d answers, %d wrong\n", checks, failures);
    return failures != 0;
}
