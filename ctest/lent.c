/* What the header says of the memory that is lent to a call: a length that is refused is not followed, an empty list may be NULL, what a
 * call has no answer for remains, and a scan reads no group behind the first hit. Exits with 1 where an answer differs from the one
 * written here, and dies where barred memory is looked at. */
#define _DEFAULT_SOURCE
#include "cases.h"
#include "built.h"
#include "old.h"
#include <sys/mman.h>

/* In the middle of pages that can be neither read nor written. */
static void *barred;

/* The end of pages that can be, where others begin that cannot. */
static uint64_t *end_of_lent;

static decode *const decoders[] = {corbastrigo_decode_type, corbastrigo_decode_asn, corbastrigo_decode_match, corbastrigo_decode_jump};
/* The last of each takes no map. */
static selection *const selections[] = {corbastrigo_select_diverse, corbastrigo_select_diverse_unchecked, old_pick};
static printing *const printings[] = {corbastrigo_page, corbastrigo_page_unchecked, old_page};

/* Where calls leave what they found. */
static uint8_t small, other, lines[4 * CORBASTRIGO_PAGE_LINE_BYTES];
static uint16_t places[64];
static uint32_t number, count, operand;
static uint64_t group, taken[64], instructions;
static size_t size, total, first, examined;

static uint8_t address[16], peer[20], peers[80];

static void make(void) {
    mapped(address, 3, 4, 5, 6);
    candidate(peer, 3, 4, 5, 6);
    candidate(peers, 8, 8, 8, 8);
    candidate(peers + 20, 3, 4, 0, 1);
    candidate(peers + 40, 3, 4, 0, 2);
    candidate(peers + 60, 1, 2, 0, 1);
}

/* The same by the calls that take a width. */
static void long_map_at(size_t len, uint32_t width) {
    IS(corbastrigo_sanity_check_bits(barred, len, width, &count, &small), CORBASTRIGO_MAP_TOO_LONG);
    IS(corbastrigo_sanity_check_stop_bits(barred, len, width, &small, &size), CORBASTRIGO_MAP_TOO_LONG);
    IS(corbastrigo_interpret_bits(barred, len, barred, width / 8, width, &small, &number, &count, &other), CORBASTRIGO_MAP_TOO_LONG);
    IS(corbastrigo_unpack_bits(barred, len, width, barred, 16, &size), CORBASTRIGO_MAP_TOO_LONG);
    IS(corbastrigo_list_bits(barred, len, width, barred, 24, &size), CORBASTRIGO_MAP_TOO_LONG);
    IS(corbastrigo_list_bytes_bits(barred, len, width, &size), CORBASTRIGO_MAP_TOO_LONG);
    IS(corbastrigo_compare_bits(barred, len, lone_return, 3, width, barred, 28, &size), CORBASTRIGO_MAP_TOO_LONG);
    IS(corbastrigo_compare_bytes_bits(lone_return, 3, barred, len, width, barred, 16, &size),
       CORBASTRIGO_NEW_MAP + CORBASTRIGO_MAP_TOO_LONG);
}

/* Barred memory as a map of a length over the limit. */
static void long_map(size_t len) {
    for (size_t i = 0; i < 4; i++)
        IS(decoders[i](barred, len, 0, &number, &size), CORBASTRIGO_MAP_TOO_LONG);
    IS(corbastrigo_decode_instruction(barred, len, 0, &count, &operand, &size), CORBASTRIGO_MAP_TOO_LONG);
    IS(corbastrigo_sanity_check(barred, len, &count, &small), CORBASTRIGO_MAP_TOO_LONG);
    IS(corbastrigo_sanity_check_stop(barred, len, &small, &size), CORBASTRIGO_MAP_TOO_LONG);
    IS(corbastrigo_interpret(barred, len, barred, 16, &small, &number, &count, &other), CORBASTRIGO_MAP_TOO_LONG);
    IS(corbastrigo_unpack(barred, len, barred, 16, &size), CORBASTRIGO_MAP_TOO_LONG);
    IS(corbastrigo_list(barred, len, barred, 24, &size), CORBASTRIGO_MAP_TOO_LONG);
    IS(corbastrigo_list_bytes(barred, len, &size), CORBASTRIGO_MAP_TOO_LONG);
    IS(corbastrigo_compare(barred, len, lone_return, 3, barred, 28, &size), CORBASTRIGO_MAP_TOO_LONG);
    IS(corbastrigo_compare(lone_return, 3, barred, len, barred, 28, &size), CORBASTRIGO_NEW_MAP + CORBASTRIGO_MAP_TOO_LONG);
    IS(corbastrigo_compare_bytes(barred, len, lone_return, 3, barred, 16, &size), CORBASTRIGO_MAP_TOO_LONG);
    IS(corbastrigo_compare_bytes(lone_return, 3, barred, len, barred, 16, &size), CORBASTRIGO_NEW_MAP + CORBASTRIGO_MAP_TOO_LONG);
    for (uint32_t width = 32; width <= 128; width += 96)
        long_map_at(len, width);
    IS(corbastrigo_netgroup(peer, 20, 1, barred, len, &group), CORBASTRIGO_MAP_TOO_LONG);
    IS(corbastrigo_netgroup_unchecked(peer, 20, 1, barred, len, &group), CORBASTRIGO_MAP_TOO_LONG);
    for (size_t i = 0; i < 2; i++) {
        IS(selections[i](peers, 80, NULL, 0, 4, 1, barred, len, barred, 4, barred, 4, &total, &first, &examined, &instructions),
           CORBASTRIGO_MAP_TOO_LONG);
        IS(printings[i](peers, 80, 1, barred, len, barred, 100, &size), CORBASTRIGO_MAP_TOO_LONG);
    }
}

/* Barred memory as an address, a candidate or records of a length that is refused. */
static void wrong_length(size_t len) {
    IS(corbastrigo_interpret(barred, 3, barred, len, &small, &number, &count, &other), CORBASTRIGO_ADDRESS_LENGTH);
    IS(corbastrigo_interpret_bits(barred, 3, barred, len, 32, &small, &number, &count, &other), CORBASTRIGO_ADDRESS_LENGTH);
    IS(corbastrigo_interpret_bits(barred, 3, barred, len, 128, &small, &number, &count, &other), CORBASTRIGO_ADDRESS_LENGTH);
    IS(corbastrigo_clearnet_unroutable(barred, len, &small), CORBASTRIGO_ADDRESS_LENGTH);
    for (unsigned id = 1; id <= 6; id++)
        IS(corbastrigo_addrv2_skip_relay((uint8_t)id, barred, len, 8333, &small), CORBASTRIGO_RELAY_LENGTH);
    IS(corbastrigo_prefix_group(barred, len, &group), CORBASTRIGO_CANDIDATE);
    IS(corbastrigo_netgroup(barred, len, 1, barred, 3, &group), CORBASTRIGO_CANDIDATE);
    IS(corbastrigo_netgroup_unchecked(barred, len, 1, barred, 3, &group), CORBASTRIGO_CANDIDATE);
    IS(corbastrigo_pack(barred, len, barred, 16, &size), CORBASTRIGO_RECORD);
    IS(corbastrigo_build(barred, len, 0, 32, barred, 3, &size), CORBASTRIGO_PREFIX);
    IS(corbastrigo_build(barred, len, 1, 128, barred, SIZE_MAX, &size), CORBASTRIGO_PREFIX);
}

/* A pick with barred memory for the lists and outputs. */
static void wrong_lists(selection *call) {
#define PICK(candidates, bytes, groups, room, group_room)                                                                              \
    call(candidates, bytes, barred, groups, 4, 0, barred, 3, barred, room, barred, group_room, &total, &first, &examined, &instructions)
    IS(PICK(barred, 81, 1, 4, 4), CORBASTRIGO_CANDIDATE);
    IS(PICK(barred, SIZE_MAX, 1, 4, 4), CORBASTRIGO_CANDIDATE);
    IS(PICK(barred, 20 * (CORBASTRIGO_MAX_CANDIDATES + 1), 1, 4, 4), CORBASTRIGO_TOO_MANY);
    IS(PICK(barred, SIZE_MAX - SIZE_MAX % 20, 1, 4, 4), CORBASTRIGO_TOO_MANY);
    IS(PICK(barred, 80, CORBASTRIGO_MAX_CANDIDATES + 1, 4, 4), CORBASTRIGO_TOO_MANY);
    IS(PICK(barred, 80, SIZE_MAX, 4, 4), CORBASTRIGO_TOO_MANY);
    IS(PICK(peers, 80, 1, 3, 4), CORBASTRIGO_OUTPUT_TOO_SHORT);
    IS(PICK(peers, 80, 1, 4, 3), CORBASTRIGO_OUTPUT_TOO_SHORT);
#undef PICK
}

/* A page with barred memory for the list, the map and the lines. The peers have three prefixes. */
static void wrong_page(printing *call) {
    size = BEFORE(1);
    IS(call(barred, 81, 1, barred, 3, barred, 100, &size), CORBASTRIGO_CANDIDATE);
    IS(call(barred, SIZE_MAX, 1, barred, 3, barred, 100, &size), CORBASTRIGO_CANDIDATE);
    IS(call(barred, 20 * (CORBASTRIGO_MAX_CANDIDATES + 1), 1, barred, 3, barred, 100, &size), CORBASTRIGO_TOO_MANY);
    IS(call(barred, SIZE_MAX - SIZE_MAX % 20, 1, barred, 3, barred, 100, &size), CORBASTRIGO_TOO_MANY);
    IS(call(peers, 80, 0, barred, 3, barred, 3 * CORBASTRIGO_PAGE_LINE_BYTES - 1, &size), CORBASTRIGO_OUTPUT_TOO_SHORT);
    IS(call(peers, 80, 0, barred, 3, barred, 0, &size), CORBASTRIGO_OUTPUT_TOO_SHORT);
    IS(call(peers, 80, 1, two_prefixes, 35, barred, 3 * CORBASTRIGO_PAGE_LINE_BYTES - 1, &size), CORBASTRIGO_OUTPUT_TOO_SHORT);
    IS(size, BEFORE(1));
}

/* Barred memory as more groups than may be occupied. */
static void too_many_groups(size_t len) {
    small = BEFORE(1);
    size = BEFORE(2);
    total = BEFORE(3);
    IS(corbastrigo_scan_occupied(0, barred, len, &small, &size, &total), CORBASTRIGO_TOO_MANY);
    IS(small, BEFORE(1));
    IS(size, BEFORE(2));
    IS(total, BEFORE(3));
}

/* Barred memory in every place, of lengths that are right at 32: a width that is refused is so first. */
static void no_width(uint32_t width) {
    IS(corbastrigo_sanity_check_bits(barred, 3, width, &count, &small), CORBASTRIGO_WIDTH);
    IS(corbastrigo_sanity_check_stop_bits(barred, 3, width, &small, &size), CORBASTRIGO_WIDTH);
    IS(corbastrigo_interpret_bits(barred, 3, barred, 4, width, &small, &number, &count, &other), CORBASTRIGO_WIDTH);
    IS(corbastrigo_unpack_bits(barred, 3, width, barred, 16, &size), CORBASTRIGO_WIDTH);
    IS(corbastrigo_list_bits(barred, 3, width, barred, 24, &size), CORBASTRIGO_WIDTH);
    IS(corbastrigo_list_bytes_bits(barred, 3, width, &size), CORBASTRIGO_WIDTH);
    IS(corbastrigo_compare_bits(barred, 3, barred, 3, width, barred, 28, &size), CORBASTRIGO_WIDTH);
    IS(corbastrigo_compare_bytes_bits(barred, 3, barred, 3, width, barred, 16, &size), CORBASTRIGO_WIDTH);
    IS(corbastrigo_build(barred, 24, 1, width, barred, 6, &size), CORBASTRIGO_WIDTH);
}

/* Outputs that are too short at 32, and an address of 4 bytes at the end of what can be read: nothing behind it is. */
static void short_at_32(void) {
    uint8_t *const last = (uint8_t *)end_of_lent - 4;
    memset(last, 0, 4);
    IS(corbastrigo_interpret_bits(two_prefixes, 35, last, 4, 32, &small, &number, &count, &other), 0);
    IS(small, CORBASTRIGO_TOO_FEW_BITS);
    IS(other, 32);
    IS(corbastrigo_unpack_bits(two_narrow, 8, 32, barred, 63, &size), CORBASTRIGO_OUTPUT_TOO_SHORT);
    IS(corbastrigo_list_bits(two_narrow, 8, 32, barred, 191, &size), CORBASTRIGO_OUTPUT_TOO_SHORT);
    IS(corbastrigo_compare_bits(two_narrow, 8, lone_return, 3, 32, barred, 195, &size), CORBASTRIGO_OUTPUT_TOO_SHORT);
    IS(corbastrigo_compare_bytes_bits(two_narrow, 8, lone_return, 3, 32, barred, 15, &size), CORBASTRIGO_OUTPUT_TOO_SHORT);
}

/* Barred memory for a load whose seed or number of pairs is refused, or whose output is too short: the load of 2 pairs from 1 has 9 bytes. */
static void wrong_load(void) {
    size = BEFORE(1);
    IS(corbastrigo_load(0, 2, barred, 9, &size), CORBASTRIGO_LOAD);
    IS(corbastrigo_load(1, CORBASTRIGO_MAX_PAIRS + 1, barred, CORBASTRIGO_LOAD_BYTES, &size), CORBASTRIGO_LOAD);
    IS(corbastrigo_load(1, SIZE_MAX, barred, SIZE_MAX, &size), CORBASTRIGO_LOAD);
    IS(corbastrigo_load(1, 2, barred, 8, &size), CORBASTRIGO_OUTPUT_TOO_SHORT);
    IS(corbastrigo_load(1, 2, barred, 0, &size), CORBASTRIGO_OUTPUT_TOO_SHORT);
    IS(size, BEFORE(1));
}

/* Barred memory for the map of a build that is refused for a record, for the given number, or for an output that is too short: the map of
 * the record has 6 bytes. No records may be barred memory too. */
static void wrong_build(uint32_t width) {
    uint8_t record[24];
    size = BEFORE(1);
    listed(record, 0x80000000, 1, 2);
    IS(corbastrigo_build(record, 24, 0, width, barred, 6, &size), CORBASTRIGO_NUMBER);
    IS(corbastrigo_build(record, 24, 1, width, barred, 5, &size), CORBASTRIGO_OUTPUT_TOO_SHORT);
    IS(corbastrigo_build(record, 24, 1, width, barred, 0, &size), CORBASTRIGO_OUTPUT_TOO_SHORT);
    IS(corbastrigo_build(barred, 0, 0, width, barred, 3, &size), CORBASTRIGO_NUMBER);
    IS(corbastrigo_build(barred, 0, 1, width, barred, 2, &size), CORBASTRIGO_OUTPUT_TOO_SHORT);
    record[20] = 0;
    IS(corbastrigo_build(record, 24, 1, width, barred, 6, &size), CORBASTRIGO_NUMBER);
    record[1] = 1;
    IS(corbastrigo_build(record, 24, 1, width, barred, 6, &size), CORBASTRIGO_PREFIX);
    IS(size, BEFORE(1));
}

/* A list whose map would be too long: 32,768 addresses, each of them told from its neighbours by 113 bits. The given number comes before that,
 * and the output, which is barred, after it. */
static void long_build(void) {
    static uint8_t records[24 << 15];
    for (uint32_t i = 0; i < sizeof records / 24; i++)
        listed(records + 24 * i, i << 17, 128, 1);
    size = BEFORE(1);
    IS(corbastrigo_build(records, sizeof records, 33521665, 128, barred, 0, &size), CORBASTRIGO_NUMBER);
    IS(corbastrigo_build(records, sizeof records, 33521664, 128, barred, 0, &size), CORBASTRIGO_MAP_TOO_LONG);
    IS(corbastrigo_build(records, sizeof records, 33521664, 128, barred, SIZE_MAX, &size), CORBASTRIGO_MAP_TOO_LONG);
    IS(size, BEFORE(1));
}

static void refused_lengths(void) {
    uint8_t list[256];
    long_map(CORBASTRIGO_MAX_MAP_BYTES + 1);
    long_map(SIZE_MAX);
    wrong_length(33);
    wrong_length(SIZE_MAX);
    for (size_t i = 0; i < 3; i++) {
        wrong_lists(selections[i]);
        wrong_page(printings[i]);
    }
    too_many_groups(CORBASTRIGO_MAX_CANDIDATES + 1);
    too_many_groups(SIZE_MAX);
    no_width(0);
    no_width(256 + 32);
    no_width(UINT32_MAX);
    short_at_32();
    wrong_load();
    wrong_build(32);
    wrong_build(128);
    long_build();
    IS(corbastrigo_addrv2_skip_relay(7, barred, 513, 8333, &small), CORBASTRIGO_RELAY_LENGTH);
    IS(corbastrigo_unpack(two_prefixes, 35, barred, 255, &size), CORBASTRIGO_OUTPUT_TOO_SHORT);
    IS(corbastrigo_unpack(two_prefixes, 35, list, 256, &size), 0);
    IS(corbastrigo_pack(list, 256, barred, 34, &size), CORBASTRIGO_OUTPUT_TOO_SHORT);
    IS(corbastrigo_list(two_prefixes, 35, barred, 2495, &size), CORBASTRIGO_OUTPUT_TOO_SHORT);
    IS(corbastrigo_list(lone_jump, 1, barred, 24, &size), CORBASTRIGO_MAP_ENDS);
    IS(corbastrigo_compare(two_prefixes, 35, lone_return, 3, barred, 2883, &size), CORBASTRIGO_OUTPUT_TOO_SHORT);
    IS(corbastrigo_compare(lone_return, 3, lone_jump, 1, barred, 2884, &size), CORBASTRIGO_NEW_MAP + CORBASTRIGO_MAP_ENDS);
    IS(corbastrigo_compare_bytes(two_prefixes, 35, lone_return, 3, barred, 15, &size), CORBASTRIGO_OUTPUT_TOO_SHORT);
    IS(corbastrigo_compare_bytes(lone_jump, 1, lone_return, 3, barred, 16, &size), CORBASTRIGO_MAP_ENDS);
}

/* Without a map the map is not looked at. */
static void no_map(uint8_t *map, size_t len) {
    IS(corbastrigo_netgroup(peer, 20, 0, map, len, &group), 0);
    IS(group, CORBASTRIGO_IPV4_GROUPS + 772);
    group = 0;
    IS(corbastrigo_netgroup_unchecked(peer, 20, 0, map, len, &group), 0);
    IS(group, CORBASTRIGO_IPV4_GROUPS + 772);
    for (size_t i = 0; i < 2; i++) {
        IS(selections[i](peers, 80, NULL, 0, 4, 0, map, len, places, 4, taken, 4, &total, &first, &examined, &instructions), 0);
        IS(first, 3);
        IS(printings[i](peers, 80, 0, map, len, lines, sizeof lines, &size), 0);
        IS(size, 3 * CORBASTRIGO_PAGE_LINE_BYTES);
    }
}

/* The calls that take a width; 18 too is told without a look at any pointer. */
static void empty_at_32(void) {
    size = BEFORE(1);
    IS(corbastrigo_sanity_check_bits(NULL, 0, 32, &count, &small), CORBASTRIGO_MAP_ENDS);
    IS(corbastrigo_sanity_check_stop_bits(NULL, 0, 31, &small, &size), CORBASTRIGO_WIDTH);
    IS(corbastrigo_interpret_bits(two_narrow, 8, NULL, 0, 32, &small, &number, &count, &other), CORBASTRIGO_ADDRESS_LENGTH);
    IS(corbastrigo_interpret_bits(NULL, 0, address, 4, 32, &small, &number, &count, &other), 0);
    IS(small, CORBASTRIGO_CUT_OPCODE);
    IS(corbastrigo_unpack_bits(NULL, 0, 32, NULL, 0, &size), CORBASTRIGO_MAP_ENDS);
    IS(corbastrigo_list_bits(two_narrow, 8, 32, NULL, 0, &size), CORBASTRIGO_OUTPUT_TOO_SHORT);
    IS(corbastrigo_list_bytes_bits(NULL, 0, 32, &size), CORBASTRIGO_MAP_ENDS);
    IS(corbastrigo_compare_bits(lone_return, 3, NULL, 0, 32, NULL, 0, &size), CORBASTRIGO_NEW_MAP + CORBASTRIGO_MAP_ENDS);
    IS(corbastrigo_compare_bytes_bits(two_narrow, 8, lone_return, 3, 32, NULL, 0, &size), CORBASTRIGO_OUTPUT_TOO_SHORT);
    IS(size, BEFORE(1));
    IS(corbastrigo_compare_bits(two_narrow, 8, two_narrow, 8, 32, NULL, 0, &size), 0);
    IS(size, 0);
    IS(corbastrigo_sanity_check_stop_bits(NULL, 0, 32, &small, &size), 0);
    IS(small, CORBASTRIGO_MAP_ENDS);
}

/* Maps that say the same need no output. */
static void empty_comparisons(void) {
    size = BEFORE(1);
    IS(corbastrigo_compare(NULL, 0, NULL, 0, NULL, 0, &size), CORBASTRIGO_MAP_ENDS);
    IS(corbastrigo_compare(lone_return, 3, NULL, 0, NULL, 0, &size), CORBASTRIGO_NEW_MAP + CORBASTRIGO_MAP_ENDS);
    IS(corbastrigo_compare(two_prefixes, 35, lone_return, 3, NULL, 0, &size), CORBASTRIGO_OUTPUT_TOO_SHORT);
    IS(corbastrigo_compare_bytes(NULL, 0, NULL, 0, NULL, 0, &size), CORBASTRIGO_MAP_ENDS);
    IS(corbastrigo_compare_bytes(lone_return, 3, NULL, 0, NULL, 0, &size), CORBASTRIGO_NEW_MAP + CORBASTRIGO_MAP_ENDS);
    IS(corbastrigo_compare_bytes(two_prefixes, 35, lone_return, 3, NULL, 0, &size), CORBASTRIGO_OUTPUT_TOO_SHORT);
    IS(size, BEFORE(1));
    IS(corbastrigo_compare(two_prefixes, 35, two_prefixes, 35, NULL, 0, &size), 0);
    IS(size, 0);
}

static void empty_scan(void) {
    small = BEFORE(1);
    size = BEFORE(2);
    total = BEFORE(3);
    IS(corbastrigo_scan_occupied(0, NULL, 0, &small, &size, &total), 0);
    IS(small, 0);
    IS(size, 0);
    IS(total, 0);
}

/* No candidates have no lines; by an empty map every walk aborts, and all candidates have group 0. */
static void empty_pages(void) {
    for (size_t i = 0; i < 3; i++) {
        size = BEFORE(1);
        IS(printings[i](NULL, 0, 0, NULL, 0, NULL, 0, &size), 0);
        IS(size, 0);
        size = BEFORE(1);
        IS(printings[i](NULL, 0, 1, lone_return, 3, NULL, 0, &size), 0);
        IS(size, 0);
        IS(printings[i](peers, 80, 0, NULL, 0, NULL, 0, &size), CORBASTRIGO_OUTPUT_TOO_SHORT);
    }
    IS(corbastrigo_page(NULL, 0, 1, NULL, 0, NULL, 0, &size), CORBASTRIGO_MAP_ENDS);
    IS(corbastrigo_page_unchecked(NULL, 0, 1, NULL, 0, NULL, 0, &size), 0);
    IS(corbastrigo_page_unchecked(peers, 80, 1, NULL, 0, lines, CORBASTRIGO_PAGE_LINE_BYTES, &size), 0);
    IS(memcmp(lines, "         0      4  100.0\n", CORBASTRIGO_PAGE_LINE_BYTES), 0);
}

/* Every load has bytes. */
static void empty_load(void) {
    size = BEFORE(1);
    IS(corbastrigo_load(1, 0, NULL, 0, &size), CORBASTRIGO_OUTPUT_TOO_SHORT);
    IS(corbastrigo_load(0, 0, NULL, 0, &size), CORBASTRIGO_LOAD);
    IS(corbastrigo_load(1, CORBASTRIGO_MAX_PAIRS + 1, NULL, 0, &size), CORBASTRIGO_LOAD);
    IS(size, BEFORE(1));
}

/* Every map has bytes, that of no records too. */
static void empty_build(void) {
    uint8_t map[3];
    size = BEFORE(1);
    IS(corbastrigo_build(NULL, 0, 1, 31, NULL, 0, &size), CORBASTRIGO_WIDTH);
    IS(corbastrigo_build(NULL, 0, 0, 32, NULL, 0, &size), CORBASTRIGO_NUMBER);
    IS(corbastrigo_build(NULL, 0, 1, 128, NULL, 0, &size), CORBASTRIGO_OUTPUT_TOO_SHORT);
    IS(size, BEFORE(1));
    IS(corbastrigo_build(NULL, 0, 1, 128, map, 3, &size), 0);
    IS(size, 3);
    IS(memcmp(map, lone_return, 3), 0);
}

static void empty_lists(void) {
    for (size_t i = 0; i < 4; i++)
        IS(decoders[i](NULL, 0, 0, &number, &size), i == 0 ? CORBASTRIGO_CUT_OPCODE : CORBASTRIGO_CUT_OPERAND);
    IS(corbastrigo_decode_instruction(NULL, 0, 0, &count, &operand, &size), CORBASTRIGO_CUT_OPCODE);
    IS(corbastrigo_sanity_check(NULL, 0, &count, &small), CORBASTRIGO_MAP_ENDS);
    IS(corbastrigo_sanity_check_stop(NULL, 0, &small, &size), 0);
    IS(corbastrigo_interpret(two_prefixes, 35, NULL, 0, &small, &number, &count, &other), CORBASTRIGO_ADDRESS_LENGTH);
    IS(corbastrigo_interpret(NULL, 0, address, 16, &small, &number, &count, &other), 0);
    IS(small, CORBASTRIGO_CUT_OPCODE);
    IS(corbastrigo_unpack(NULL, 0, NULL, 0, &size), CORBASTRIGO_MAP_ENDS);
    IS(corbastrigo_unpack(two_prefixes, 35, NULL, 0, &size), CORBASTRIGO_OUTPUT_TOO_SHORT);
    IS(corbastrigo_pack(NULL, 0, NULL, 0, &size), 0);
    IS(size, 0);
    IS(corbastrigo_list(NULL, 0, NULL, 0, &size), CORBASTRIGO_MAP_ENDS);
    IS(corbastrigo_list(two_prefixes, 35, NULL, 0, &size), CORBASTRIGO_OUTPUT_TOO_SHORT);
    IS(corbastrigo_list_bytes(NULL, 0, &size), CORBASTRIGO_MAP_ENDS);
    IS(size, 0);
    empty_comparisons();
    empty_at_32();
    IS(corbastrigo_prefix_group(NULL, 0, &group), CORBASTRIGO_CANDIDATE);
    IS(corbastrigo_netgroup(NULL, 0, 0, NULL, 0, &group), CORBASTRIGO_CANDIDATE);
    IS(corbastrigo_netgroup(peer, 20, 1, NULL, 0, &group), CORBASTRIGO_MAP_ENDS);
    IS(corbastrigo_netgroup_unchecked(peer, 20, 1, NULL, 0, &group), 0);
    IS(group, 0);
    empty_scan();
    for (size_t i = 0; i < 3; i++) {
        IS(selections[i](NULL, 0, NULL, 0, 4, 0, NULL, 0, NULL, 0, NULL, 0, &total, &first, &examined, &instructions), 0);
        IS(total, 0);
        IS(selections[i](peers, 80, NULL, 0, 0, 0, NULL, 0, NULL, 0, NULL, 0, &total, &first, &examined, &instructions), 0);
        IS(total, 0);
    }
    empty_pages();
    IS(corbastrigo_clearnet_unroutable(NULL, 0, &small), CORBASTRIGO_ADDRESS_LENGTH);
    IS(corbastrigo_addrv2_skip_relay(7, NULL, 0, 8333, &small), 0);
    IS(small, 0);
    empty_load();
    empty_build();
}

/* Both outputs are longer than any answer, and hold other numbers before each call. */
static void remains(selection *call, const uint8_t *map, size_t map_len, const uint64_t *occupied, size_t occupied_len, size_t wanted) {
    for (size_t i = 0; i < 64; i++)
        taken[i] = places[i] = BEFORE(1);
    IS(call(peers, 80, occupied, occupied_len, 3, 1, map, map_len, places, 64, taken, 64, &total, &first, &examined, &instructions), 0);
    IS(total, 3);
    IS(first, wanted);
    for (size_t i = 0; i < 64; i++) {
        IS(places[i] == BEFORE(1), total <= i);
        IS(taken[i] == BEFORE(1), first <= i);
    }
}

/* Every walk of a lone JUMP aborts: all candidates have group 0, which is free once or not at all. By the old numbering the last has 258. */
static void picks(void) {
    const uint64_t zero[1] = {0}, of_the_last[1] = {258};
    for (size_t i = 0; i < 2; i++) {
        remains(selections[i], two_prefixes, 35, NULL, 0, 3);
        remains(selections[i], two_prefixes, 35, zero, 1, 2);
    }
    remains(corbastrigo_select_diverse_unchecked, lone_jump, 1, NULL, 0, 1);
    IS(taken[0], 0);
    remains(corbastrigo_select_diverse_unchecked, lone_jump, 1, zero, 1, 0);
    remains(old_pick, NULL, 0, NULL, 0, 3);
    remains(old_pick, NULL, 0, of_the_last, 1, 2);
    group = BEFORE(1);
    IS(corbastrigo_netgroup_unchecked(peer, 20, 1, lone_jump, 1, &group), 0);
    IS(group, 0);
}

/* Three lines that end where memory can be written no further; then with room behind them, which remains, of candidates that end where
 * memory can be read no further. */
static void lines_at_the_end(printing *call) {
    const size_t len = 3 * CORBASTRIGO_PAGE_LINE_BYTES;
    uint8_t *const last = (uint8_t *)end_of_lent - len, *const list = (uint8_t *)end_of_lent - sizeof peers;
    IS(call(peers, 80, 1, two_prefixes, 35, last, len, &size), 0);
    IS(size, len);
    memset(lines, BEFORE(1), sizeof lines);
    memcpy(list, peers, sizeof peers);
    IS(call(list, 80, 1, two_prefixes, 35, lines, sizeof lines, &size), 0);
    IS(size, len);
    for (size_t i = 0; i < sizeof lines; i++)
        IS(lines[i] == BEFORE(1), size <= i);
}

/* A load that ends where memory can be written no further, of each number of pairs; how long it is, a longer output tells. */
static void loads_at_the_end(void) {
    static uint8_t load[CORBASTRIGO_LOAD_BYTES];
    for (size_t pairs = 0; pairs <= CORBASTRIGO_MAX_PAIRS; pairs++) {
        IS(corbastrigo_load(1, pairs, load, sizeof load, &size), 0);
        uint8_t *const last = (uint8_t *)end_of_lent - size;
        IS(corbastrigo_load(1, pairs, last, size, &total), 0);
        IS(total, size);
        IS(memcmp(last, load, size), 0);
    }
}

/* Records that end where memory can be read no further; then a map that ends where it can be written no further. */
static void build_at_the_end(const uint8_t *records, size_t count, uint32_t width) {
    static uint8_t map[MOST_BITS / 8];
    const size_t len = make_built(records, count, 7);
    uint8_t *const list = (uint8_t *)end_of_lent - 24 * count, *const last = (uint8_t *)end_of_lent - len;
    memcpy(list, records, 24 * count);
    IS(corbastrigo_build(list, 24 * count, 7, width, map, sizeof map, &size), 0);
    IS(size, len);
    IS(memcmp(map, built.bytes, len), 0);
    IS(corbastrigo_build(records, 24 * count, 7, width, last, len, &total), 0);
    IS(total, len);
    IS(memcmp(last, built.bytes, len), 0);
}

/* Lists of up to 24 addresses, whose maps begin at each place of a word, as they end at one. */
static void builds_at_the_end(void) {
    uint8_t records[24 * 24];
    for (uint32_t i = 0; i < 24; i++)
        listed(records + 24 * i, (i << 27) + i, 32, i + 1);
    for (size_t count = 0; count <= 24; count++)
        for (uint32_t width = 32; width <= 128; width += 96)
            build_at_the_end(records, count, width);
}

/* A scan of groups that end where memory can be read no further, the last of them the first hit. The length tells of more: the header does
 * not allow that, and here it is done on purpose, since the call says how many groups it read, and a group more would be barred. */
static void scan_to(size_t place, size_t len) {
    uint64_t *const occupied = end_of_lent - (place + 1);
    for (size_t i = 0; i < place; i++)
        occupied[i] = i;
    occupied[place] = UINT64_MAX;
    small = BEFORE(1);
    size = total = BEFORE(2);
    IS(corbastrigo_scan_occupied(UINT64_MAX, occupied, len, &small, &size, &total), 0);
    IS(small, 1);
    IS(size, place);
    IS(total, place + 1);
}

/* A call may look at several groups in a turn. So the hit falls on each place of a turn, and the length leaves each number of groups that a
 * turn could take behind it, and as many as there may be. */
static void groups_behind_a_hit(void) {
    for (size_t place = 0; place <= 40; place++) {
        for (size_t more = 0; more <= 16; more++)
            scan_to(place, place + 1 + more);
        scan_to(place, CORBASTRIGO_MAX_CANDIDATES);
    }
    scan_to(CORBASTRIGO_MAX_CANDIDATES - 2, CORBASTRIGO_MAX_CANDIDATES);
    scan_to(CORBASTRIGO_MAX_CANDIDATES - 1, CORBASTRIGO_MAX_CANDIDATES);
}

int main(void) {
    char *pages = mmap(NULL, 4 << 16, PROT_NONE, MAP_PRIVATE | MAP_ANONYMOUS, -1, 0);
    if (pages == MAP_FAILED || mprotect(pages, 1 << 16, PROT_READ | PROT_WRITE) != 0)
        return 2;
    end_of_lent = (uint64_t *)(pages + (1 << 16));
    barred = pages + (2 << 16);
    make();
    refused_lengths();
    no_map(barred, 3);
    no_map(NULL, 0);
    empty_lists();
    picks();
    for (size_t i = 0; i < 3; i++)
        lines_at_the_end(printings[i]);
    loads_at_the_end();
    builds_at_the_end();
    groups_behind_a_hit();
    printf("memory lent to calls: %d answers, %d wrong\n", checks, failures);
    return failures != 0;
}
