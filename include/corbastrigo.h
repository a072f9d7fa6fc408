/* Bitcoin's address map (asmap), maps built from prefixes, peer groups, address filters and loads: the calls of libcorbastrigo.a.
 *
 * Every call answers 0 when it is done, or the number of its refusal (below; corbastrigo_reason says it in words). The check of a map refuses
 * with 1 to 10 and 19, and "the check's" below are these. Of a call that takes two maps a number over 100 is the new map's refusal:
 * CORBASTRIGO_NEW_MAP and the number that it has below, 101 to 110 and 119. A refused call has written nothing: every number and every
 * place that was lent holds what it held before. Any bytes, lengths and numbers may be handed over. No call keeps a pointer, allocates, or
 * waits.
 *
 * Pointers. A list is a pointer and a number of elements. The pointer is aligned for its elements and has as many behind it; where the
 * number is 0, nothing is read or written through it, and it may be NULL. A pointer to a single number is never NULL. What a call
 * writes to may overlap nothing else that is handed to the same call. What it only reads may: two maps may be the same bytes.
 *
 * Lengths. A length that a call refuses is refused as a number: nothing behind its pointer is looked at. That is so of a map over the
 * limit (1, 101), of addresses (11, 17), of one candidate (13), of candidates that are no multiple of 20 bytes (13), of too many candidates
 * or occupied groups (12), of records that are no multiple of 16 bytes (16) or, of prefixes, of 24 (21), and of outputs that are too
 * short (14). The number of records has no limit of its own: they are read up to the first that is wrong. A width that is refused (18) is so
 * before anything else is looked at, lengths too; a seed or a number of pairs (20) is so before the output's length.
 *
 * Threads. Any number of threads may be in any calls at once: the archive has no variables. Calls at once may read the same lists; what
 * one of them writes to is its own until it returns.
 *
 * Stack. A call takes less than CORBASTRIGO_STACK_BYTES, a comparison of two maps less than CORBASTRIGO_COMPARE_STACK_BYTES, a pick less
 * than CORBASTRIGO_PICK_STACK_BYTES, a page less than CORBASTRIGO_PAGE_STACK_BYTES. Not counted are memset's own, and the dynamic
 * linker's where it looks memset up at its first call. No call recurses.
 *
 * Platform. x86-64 Linux: ELF, the System V calling convention, any x86-64 processor. The code is position-independent: the archive
 * links into a program, position-independent or not, and into a shared object. Of the C library it wants memset and nothing else.
 *
 * Each call is proved to meet its contract for every input (docs/PROMISES.md). The promises stand on what this page asks of pointers.
 * What it says of refused lengths, groups behind a hit, NULL, threads, stack and platform is not proved; it is tested (ctest/).
 */
#ifndef CORBASTRIGO_H
#define CORBASTRIGO_H

#include <stddef.h>
#include <stdint.h>

/* The version of this header and of the archive that comes with it. */
#define CORBASTRIGO_VERSION "0.1.0"
#define CORBASTRIGO_VERSION_MAJOR 0
#define CORBASTRIGO_VERSION_MINOR 1
#define CORBASTRIGO_VERSION_PATCH 0

/* C90 has no `inline`, but GNU C has a word for it there. Elsewhere the function is plainly static. */
#if defined(__cplusplus) || (defined(__STDC_VERSION__) && __STDC_VERSION__ >= 199901L)
#define CORBASTRIGO_INLINE static inline
#elif defined(__GNUC__)
#define CORBASTRIGO_INLINE static __inline__
#else
#define CORBASTRIGO_INLINE static
#endif

#ifdef __cplusplus
extern "C" {
#endif

/* Refusals. */
enum corbastrigo_refusal {
    CORBASTRIGO_MAP_TOO_LONG = 1,        /* a map over 16,777,216 bytes, given, packed or built */
    CORBASTRIGO_MAP_ENDS = 2,            /* the map ends where an instruction must start */
    CORBASTRIGO_PAST_TARGET = 3,         /* an instruction at or past the innermost open jump's target */
    CORBASTRIGO_CUT_OPCODE = 4,          /* an opcode cut by the map's end */
    CORBASTRIGO_AFTER_DEFAULT = 5,       /* RETURN or DEFAULT straight after DEFAULT */
    CORBASTRIGO_PADDING = 6,             /* more than 7 bits, or a 1 among them, after the last RETURN */
    CORBASTRIGO_NOT_AT_TARGET = 7,       /* a RETURN that does not end at the innermost open jump's target */
    CORBASTRIGO_NO_BITS = 8,             /* more address bits used than are left */
    CORBASTRIGO_TARGETS_CROSS = 9,       /* a jump's target at or past the innermost open jump's */
    CORBASTRIGO_SHORT_MATCHES = 10,      /* a MATCH shorter than 8 straight after one shorter than 8 */
    CORBASTRIGO_ADDRESS_LENGTH = 11,     /* an address not of 16 bytes, or of 4 at width 32 */
    CORBASTRIGO_TOO_MANY = 12,           /* over 4,096 candidates or occupied groups */
    CORBASTRIGO_CANDIDATE = 13,          /* a candidate of another length or form */
    CORBASTRIGO_OUTPUT_TOO_SHORT = 14,   /* a lent output too short */
    CORBASTRIGO_OUT_OF_RANGE = 15,       /* an opcode or operand out of its range */
    CORBASTRIGO_RECORD = 16,             /* records not of 16 bytes, or a zero, place or length wrong */
    CORBASTRIGO_RELAY_LENGTH = 17,       /* an addrv2 address of a length that its network has not */
    CORBASTRIGO_WIDTH = 18,              /* a width that is neither 32 nor 128 */
    CORBASTRIGO_CUT_OPERAND = 19,        /* an operand cut by the map's end */
    CORBASTRIGO_LOAD = 20,               /* a seed of 0, or more than 128 pairs */
    CORBASTRIGO_PREFIX = 21,             /* records not of 24 bytes, or a prefix out of order, overlapping, too long or with wrong zeros */
    CORBASTRIGO_NUMBER = 22              /* a number that is not within 1 to 33,521,664 */
};

/* Added to the check's refusal where a call takes two maps and the new one is refused. */
#define CORBASTRIGO_NEW_MAP 100

/* What a call's answer says, in English, with no full stop: text for a log or a person. It never is NULL. Of 101 to 110 and 119 it says what
 * it says of 1 to 10 and 19: which of two maps is meant the number tells. */
CORBASTRIGO_INLINE const char *corbastrigo_reason(uint8_t answer) {
    const int of_new = (CORBASTRIGO_NEW_MAP < answer && answer <= CORBASTRIGO_NEW_MAP + CORBASTRIGO_SHORT_MATCHES) ||
                       answer == CORBASTRIGO_NEW_MAP + CORBASTRIGO_CUT_OPERAND;
    switch (of_new ? answer - CORBASTRIGO_NEW_MAP : answer) {
    case 0: return "done";
    case CORBASTRIGO_MAP_TOO_LONG: return "the map has more than 16,777,216 bytes";
    case CORBASTRIGO_MAP_ENDS: return "the map ends where an instruction must start";
    case CORBASTRIGO_PAST_TARGET: return "an instruction starts at or past the innermost open jump's target";
    case CORBASTRIGO_CUT_OPCODE: return "an opcode is cut by the map's end";
    case CORBASTRIGO_AFTER_DEFAULT: return "a RETURN or a DEFAULT comes straight after a DEFAULT";
    case CORBASTRIGO_PADDING: return "more than 7 bits, or a bit that is 1, follow the last RETURN";
    case CORBASTRIGO_NOT_AT_TARGET: return "a RETURN does not end at the innermost open jump's target";
    case CORBASTRIGO_NO_BITS: return "an instruction uses more address bits than are left";
    case CORBASTRIGO_TARGETS_CROSS: return "a jump's target lies at or past the innermost open jump's target";
    case CORBASTRIGO_SHORT_MATCHES: return "a MATCH shorter than 8 comes straight after a MATCH shorter than 8";
    case CORBASTRIGO_ADDRESS_LENGTH: return "the address does not have 16 bytes, or 4 at width 32";
    case CORBASTRIGO_TOO_MANY: return "more than 4,096 candidates or occupied groups";
    case CORBASTRIGO_CANDIDATE: return "a candidate is not 20 bytes of a known form";
    case CORBASTRIGO_OUTPUT_TOO_SHORT: return "the output is too short";
    case CORBASTRIGO_OUT_OF_RANGE: return "the opcode or operand is out of its range";
    case CORBASTRIGO_RECORD: return "a record's length, zeros, place or size is wrong";
    case CORBASTRIGO_RELAY_LENGTH: return "the address has a length that its network does not have";
    case CORBASTRIGO_WIDTH: return "the width is neither 32 nor 128";
    case CORBASTRIGO_CUT_OPERAND: return "an operand is cut by the map's end";
    case CORBASTRIGO_LOAD: return "the seed is 0, or there are more than 128 pairs";
    case CORBASTRIGO_PREFIX:
        return "record bytes no multiple of 24, or a prefix out of order, overlapping, longer than the width, with ones past it or wrong zeros";
    case CORBASTRIGO_NUMBER: return "a number that is not within 1 to 33,521,664";
    default: return "a reason that this version does not know";
    }
}

#define CORBASTRIGO_MAX_MAP_BYTES 16777216
#define CORBASTRIGO_MAX_CANDIDATES 4096
#define CORBASTRIGO_ADDRESS_BYTES 16
#define CORBASTRIGO_ADDRESS_BITS 128
#define CORBASTRIGO_IPV4_BYTES 4
#define CORBASTRIGO_IPV4_BITS 32
#define CORBASTRIGO_CANDIDATE_BYTES 20
#define CORBASTRIGO_RECORD_BYTES 16
#define CORBASTRIGO_PREFIX_RECORD_BYTES 24
#define CORBASTRIGO_CHANGE_RECORD_BYTES 28
#define CORBASTRIGO_PAGE_LINE_BYTES 25

/* The first group of IPv4 without a map, by the new numbering: those of IPv6 are all below. */
#define CORBASTRIGO_IPV4_GROUPS 4294967296u

/* The seed that a load has where nobody names another, the most pairs of a load, and the bytes that are enough for every load. */
#define CORBASTRIGO_DEFAULT_SEED 1
#define CORBASTRIGO_MAX_PAIRS 128
#define CORBASTRIGO_LOAD_BYTES 419

/* More stack than a call takes, than a comparison of two maps takes, than a pick takes, and than a page takes. */
#define CORBASTRIGO_STACK_BYTES 2048
#define CORBASTRIGO_COMPARE_STACK_BYTES 4096
#define CORBASTRIGO_PICK_STACK_BYTES 26624
#define CORBASTRIGO_PAGE_STACK_BYTES 67584

/* Opcodes. */
#define CORBASTRIGO_RETURN 0
#define CORBASTRIGO_JUMP 1
#define CORBASTRIGO_MATCH 2
#define CORBASTRIGO_DEFAULT 3

/* ---- Codes. A map's bits run from the lowest of each byte upward.
 *
 * Reading: the code of a row that starts at bit `at`. Writes its value and the bit after it. Refusals 1, then where the map's end cuts the
 * code 4 of an opcode (decode_type) and 19 of an operand (the other three), also where `at` is at or past the map's end. */
uint8_t corbastrigo_decode_type(const uint8_t *map, size_t map_len, size_t at, uint32_t *value, size_t *next);
uint8_t corbastrigo_decode_asn(const uint8_t *map, size_t map_len, size_t at, uint32_t *value, size_t *next);
uint8_t corbastrigo_decode_match(const uint8_t *map, size_t map_len, size_t at, uint32_t *value, size_t *next);
uint8_t corbastrigo_decode_jump(const uint8_t *map, size_t map_len, size_t at, uint32_t *value, size_t *next);

/* The instruction that starts at bit `at`: its opcode, its operand and its length in bits. Refusals 1, then where the map's end cuts it 4 in
 * its opcode, also where `at` is at or past the map's end, and 19 in its operand. */
uint8_t corbastrigo_decode_instruction(const uint8_t *map, size_t map_len, size_t at, uint32_t *opcode, uint32_t *operand,
                                       size_t *size);

/* Writing: the code of a value, its first bit lowest in `bits`, and its length in bits. Refusal 15. */
uint8_t corbastrigo_encode_type(uint32_t value, uint64_t *bits, size_t *len);
uint8_t corbastrigo_encode_asn(uint32_t value, uint64_t *bits, size_t *len);
uint8_t corbastrigo_encode_match(uint32_t value, uint64_t *bits, size_t *len);
uint8_t corbastrigo_encode_jump(uint32_t value, uint64_t *bits, size_t *len);

/* An instruction's code, at most 57 bits. Refusal 15. */
uint8_t corbastrigo_encode_instruction(uint32_t opcode, uint32_t operand, uint64_t *bits, size_t *len);

/* ---- Maps */

/* Whether a map is sane over 128 address bits. Writes its number of instructions and how many jumps were open at most. Refusals 1 to
 * 10 and 19. No map that is accepted here can abort a walk by 16 bytes. */
uint8_t corbastrigo_sanity_check(const uint8_t *map, size_t map_len, uint32_t *count, uint8_t *depth);

/* Where the check of a map stops, and why. Writes the reason, 0 where the check accepts and else the number of its refusal, 2 to 10 or 19; and
 * the place, a bit of the map: the first of the instruction at which the check accepts or refuses, also where its operand is cut, or
 * 8 * map_len where the map ends before one. 0 says that both are written, not that the map is sane. Refusal 1. */
uint8_t corbastrigo_sanity_check_stop(const uint8_t *map, size_t map_len, uint8_t *reason, size_t *place);

/* How a walk ended: one of these, or CORBASTRIGO_CUT_OPCODE, also where it came to the map's end or past it, or CORBASTRIGO_CUT_OPERAND. */
#define CORBASTRIGO_RETURNED 1     /* at a RETURN */
#define CORBASTRIGO_DIFFERED 2     /* at a MATCH that differs, with the default, 0 until a DEFAULT was read */
#define CORBASTRIGO_TOO_FEW_BITS 3 /* at a JUMP or MATCH that needs more address bits than are left */

/* Whether a walk that ended so was aborted: 0 at a RETURN or a difference, else 1, also of a kind that this version does not know. An aborted
 * walk has the number 0, and only a map that is refused at the walk's width aborts one. */
CORBASTRIGO_INLINE int corbastrigo_aborted(uint8_t kind) {
    return kind != CORBASTRIGO_RETURNED && kind != CORBASTRIGO_DIFFERED;
}
#undef CORBASTRIGO_INLINE

/* Walks a map by an address of 16 bytes, IPv4 in its mapped form (ten zeros, ff ff, its four). Any map will do. Writes how the walk
 * ended (its kind, above), the number (0 alone does not tell how), the instructions that were read whole, and the address bits read.
 * Refusals 11, then 1. */
uint8_t corbastrigo_interpret(const uint8_t *map, size_t map_len, const uint8_t *address, size_t address_len, uint8_t *kind,
                              uint32_t *number, uint32_t *count, uint8_t *bits);

/* Lists an accepted map's instructions as records of 16 bytes, little-endian: opcode (1 byte), three zeros, operand (4), place of the
 * first bit (4), length in bits (4). `out` needs 16 bytes for each instruction that the check counts. Writes the bytes written; those
 * behind them remain. Refusals: the check's, then 14. */
uint8_t corbastrigo_unpack(const uint8_t *map, size_t map_len, uint8_t *out, size_t out_len, size_t *written);

/* Writes the map that records list, with zeros to the end of its last byte; no records make no bytes. Runs no check. Writes the bytes
 * written; those behind them remain. Refusals 16 for the length; for each record 15, 16, 1; then 14. */
uint8_t corbastrigo_pack(const uint8_t *records, size_t records_len, uint8_t *out, size_t out_len, size_t *written);

/* Lists every prefix that an accepted map tells apart, with its number, as records of 24 bytes: 16 address bytes with zeros past the
 * prefix, the prefix's length in bits, 0 to 128 (1 byte), three zeros, the number, little-endian (4). Each RETURN gives a record; each bit
 * of a MATCH gives one for the side that differs, with the default of that path, 0 until one is met. Records rise by address and are not
 * joined: every address lies in just one, and that one carries the number of its walk. IPv4 stands under ::ffff:0:0/96, so that its
 * lengths are 96 more. `out` needs as many bytes as corbastrigo_list_bytes says. Writes the bytes written; those behind them remain.
 * Refusals: the check's, then 14. */
uint8_t corbastrigo_list(const uint8_t *map, size_t map_len, uint8_t *out, size_t out_len, size_t *written);

/* How many bytes the list of a map's prefixes has: 24 for each. Refusals: the check's. */
uint8_t corbastrigo_list_bytes(const uint8_t *map, size_t map_len, size_t *bytes);

/* Compares what two accepted maps say of every address. Where a prefix of the one's list and a prefix of the other's overlap, one of them
 * lies in the other, and that one is the piece. Each piece whose two numbers differ gives a record of 28 bytes: 16 address bytes with zeros
 * past the prefix, the prefix's length in bits, 0 to 128 (1 byte), three zeros, the old map's number and the new map's, little-endian (4
 * each). Records rise by address and are not joined: an address walks to the same number by both maps just where it lies in none, and
 * else to the two numbers of the one that it lies in. `out` needs as many bytes as corbastrigo_compare_bytes says. With 28 bytes for each
 * prefix of both lists, which is always enough, the maps are gone through once after their checks; with fewer the records are counted
 * first, in one time more. Writes the bytes written; those behind them remain. Refusals: the check's of the old map, then of the new one,
 * 100 more, then 14. */
uint8_t corbastrigo_compare(const uint8_t *old_map, size_t old_map_len, const uint8_t *new_map, size_t new_map_len, uint8_t *out,
                            size_t out_len, size_t *written);

/* How many bytes that comparison has: 28 for each record, 0 where every address walks to the same number by both maps. Writes them, and to
 * the first 16 bytes of `first` the first address that differs, or zeros where none does; what lies behind them remains. Refusals: as
 * above, 14 being a `first` of fewer than 16 bytes. */
uint8_t corbastrigo_compare_bytes(const uint8_t *old_map, size_t old_map_len, const uint8_t *new_map, size_t new_map_len,
                                  uint8_t *first, size_t first_len, size_t *bytes);

/* ---- Maps at a width. Each of these calls is the one above without `_bits`, over `width` address bits: 32 or 128. Any other width is
 * refused with 18, first of all, by a comparison too, which adds nothing to it. At 128 each answers just as the call above.
 *
 * 32 is for maps without the 96 bits in front of a mapped IPv4 address. An address is the four bytes of an IPv4 address then, not its
 * mapped form, its bit 0 the highest of the first byte. Records of prefixes and of changes are as long as at 128: the first 4 of their 16
 * address bytes carry the address, the other 12 are zeros, and a prefix's length is 0 to 32.
 *
 * A map is for one width: what was checked at one is to be walked, listed and compared at that one. A map that is accepted at 32 is accepted
 * at 128 too, but a walk there asks the first bits of the mapped form, not those of the IPv4 address. Groups, picks and pages keep
 * 128. */

/* The check over `width` bits. Refusals 18, then the check's. No map that is accepted here can abort a walk at the same width, and no such
 * walk reads more than 2 * width + 1 instructions. */
uint8_t corbastrigo_sanity_check_bits(const uint8_t *map, size_t map_len, uint32_t width, uint32_t *count, uint8_t *depth);

/* Where that check stops, and why. Refusals 18, then 1. */
uint8_t corbastrigo_sanity_check_stop_bits(const uint8_t *map, size_t map_len, uint32_t width, uint8_t *reason, size_t *place);

/* The walk by an address of 4 bytes at width 32, of 16 at 128. Refusals 18, 11, 1. */
uint8_t corbastrigo_interpret_bits(const uint8_t *map, size_t map_len, const uint8_t *address, size_t address_len, uint32_t width,
                                   uint8_t *kind, uint32_t *number, uint32_t *count, uint8_t *bits);

/* The instructions of a map that is accepted at the width. Refusals 18, then the check's at that width, then 14. */
uint8_t corbastrigo_unpack_bits(const uint8_t *map, size_t map_len, uint32_t width, uint8_t *out, size_t out_len, size_t *written);

/* The prefixes of such a map. `out` needs as many bytes as corbastrigo_list_bytes_bits says at the same width. Refusals 18, then the check's
 * at that width, then 14. */
uint8_t corbastrigo_list_bits(const uint8_t *map, size_t map_len, uint32_t width, uint8_t *out, size_t out_len, size_t *written);

/* How many bytes that list has. Refusals 18, then the check's at that width. */
uint8_t corbastrigo_list_bytes_bits(const uint8_t *map, size_t map_len, uint32_t width, size_t *bytes);

/* Two maps compared, both at the one width. `out` needs as many bytes as corbastrigo_compare_bytes_bits says. Refusals 18, then at that
 * width the check's of the old map and of the new one, 100 more, then 14. */
uint8_t corbastrigo_compare_bits(const uint8_t *old_map, size_t old_map_len, const uint8_t *new_map, size_t new_map_len, uint32_t width,
                                 uint8_t *out, size_t out_len, size_t *written);

/* How many bytes that comparison has, and the first address that differs: 16 bytes of `first` at either width, at 32 the address and 12
 * zeros. Refusals: as above, 14 being a `first` of fewer than 16 bytes. */
uint8_t corbastrigo_compare_bytes_bits(const uint8_t *old_map, size_t old_map_len, const uint8_t *new_map, size_t new_map_len,
                                       uint32_t width, uint8_t *first, size_t first_len, size_t *bytes);

/* ---- A map built from prefixes, for whoever undoes single prefixes: a list is taken from a map, changed, and made a map again.
 *
 * Writes the map of records of prefixes, which are those of corbastrigo_list, or at width 32 of corbastrigo_list_bits: rising by address,
 * none in another, each with a number within 1 to 33,521,664. All other addresses are sent to `given`. Where all addresses of a subtree have
 * one number the map has a RETURN, elsewhere a JUMP, the half with bit 0 and the half with bit 1; so records and gaps of one number are
 * joined, the same numbers make the same bytes whatever the records are, and no records make a lone RETURN of `given`. Zeros stand to the
 * end of the last byte. Every map that is written is accepted at the width, and every address of the width walks to the number of its record,
 * or to `given` where it lies in none.
 *
 * A list may hold the number 0, of addresses whose walk differed before a DEFAULT was met. No RETURN holds it, and it is refused: leave such
 * records out, so that their addresses get `given`, or give them a number of their own.
 *
 * `records` has 24 bytes for each prefix. How long the map is no call tells before; `out` with CORBASTRIGO_MAX_MAP_BYTES is always long
 * enough. Writes the bytes written; those behind them remain. Refusals 18, first of all; 21 for bytes that are no multiple of 24; for each
 * record 21 where its prefix is wrong, then 22 for its number; 22 for `given`; 1 where the map would be longer than a map may be; 14. */
uint8_t corbastrigo_build(const uint8_t *records, size_t records_len, uint32_t given, uint32_t width, uint8_t *out, size_t out_len,
                          size_t *written);

/* ---- Groups, picks and pages. A candidate is 20 bytes: family 4 or 6, a zero, 16 address bytes (family 4: in the mapped form), the
 * port big-endian. `has_map` 0 is without a map: then `map` is not looked at (hand over NULL and 0), and a group is the prefix of the
 * address by the new numbering. Any other number is with it.
 *
 * The new numbering: an IPv4 address a.b.c.d, of family 4 or mapped in family 6, has the group CORBASTRIGO_IPV4_GROUPS + 256 * a + b; any
 * other IPv6 address has its first four bytes, big-endian, which is less. So IPv4 never shares a group with IPv6, two IPv4 addresses
 * share one just where their first two bytes are the same, and 0 is the group of an IPv6 address alone, under ::/32.
 *
 * The old numbering is there for nodes that stored old groups, until they have made them again: 256 * a + b of family 4, the first four
 * bytes of family 6, so 0 of every mapped address. corbastrigo_prefix_group, corbastrigo_old_prefix_pick and corbastrigo_old_prefix_page
 * go by it, and no other call. Groups of the two numberings do not belong in one list: an old 258 is 1.2.0.0/16 or 0:102::/32, and
 * the number does not tell which (docs/SWITCHING.md says how to go over). */

/* The group of a candidate without a map by the old numbering. Refusal 13. */
uint8_t corbastrigo_prefix_group(const uint8_t *candidate, size_t candidate_len, uint64_t *group);

/* The group of a candidate: without a map its prefix by the new numbering, with a map the number of its walk. Refusals 13, then with a map
 * the check's. */
uint8_t corbastrigo_netgroup(const uint8_t *candidate, size_t candidate_len, uint8_t has_map, const uint8_t *map, size_t map_len,
                             uint64_t *group);

/* The same for a map that was checked before: it is walked as it is. Of a map that the check refuses a walk may abort; its group is 0
 * then, and nothing tells it from the 0 of a walk that differed before a DEFAULT. Refusals 13, then with a map 1. */
uint8_t corbastrigo_netgroup_unchecked(const uint8_t *candidate, size_t candidate_len, uint8_t has_map, const uint8_t *map,
                                       size_t map_len, uint64_t *group);

/* Looks for a group among the occupied ones, from the first on and up to the first hit: no group behind that is read. Writes whether there
 * is a hit, 1 or 0; its place from 0, or 0 where there is none; and how many groups were read: that place plus one, or all. Refusal 12. */
uint8_t corbastrigo_scan_occupied(uint64_t group, const uint64_t *occupied, size_t occupied_len, uint8_t *found, size_t *place,
                                  size_t *groups_read);

/* Picks up to `max` of the candidates, which are ranked: first, in order, each whose group is neither occupied nor taken; then, in
 * order, those unequal to every pick. `candidates_len` is in bytes, the other lengths in elements. Writes the places of the picks, the
 * groups of the first pass's picks, the number of picks, of first-pass picks, of candidates whose group was looked up, and the
 * instructions of their walks (0 without a map). `picks` and `groups` need min(max, candidates) places each; what lies past `*total` in
 * `picks` and past `*first` in `groups` remains. Where no group is occupied, `occupied` may be NULL and its length 0. Refusals 13 for
 * the length, 12, 13, with a map the check's, 14. */
uint8_t corbastrigo_select_diverse(const uint8_t *candidates, size_t candidates_len, const uint64_t *occupied, size_t occupied_len,
                                   size_t max, uint8_t has_map, const uint8_t *map, size_t map_len, uint16_t *picks,
                                   size_t picks_len, uint64_t *groups, size_t groups_len, size_t *total, size_t *first,
                                   size_t *examined, uint64_t *instructions);

/* The same for a map that was checked before: it is walked as it is, and with a map 1 stands in the place of the check's refusals. Of a
 * map that the check refuses a walk may abort; its candidate has group 0 then. */
uint8_t corbastrigo_select_diverse_unchecked(const uint8_t *candidates, size_t candidates_len, const uint64_t *occupied,
                                             size_t occupied_len, size_t max, uint8_t has_map, const uint8_t *map,
                                             size_t map_len, uint16_t *picks, size_t picks_len, uint64_t *groups,
                                             size_t groups_len, size_t *total, size_t *first, size_t *examined,
                                             uint64_t *instructions);

/* The pick without a map by the old numbering, for nodes whose occupied groups are old ones. It is corbastrigo_select_diverse with
 * `has_map` 0 but for the groups: those of `occupied` are old ones, and so are those that it writes. `*instructions` becomes 0. Refusals 13
 * for the length, 12, 13, 14. */
uint8_t corbastrigo_old_prefix_pick(const uint8_t *candidates, size_t candidates_len, const uint64_t *occupied, size_t occupied_len,
                                    size_t max, uint16_t *picks, size_t picks_len, uint64_t *groups, size_t groups_len,
                                    size_t *total, size_t *first, size_t *examined, uint64_t *instructions);

/* Writes how candidates spread over groups, as lines of text to print. Groups rise; a line has the group right-aligned in 10 columns, a
 * space, its candidates right-aligned in 6, a space, their per cent of all with one decimal right-aligned in 6, and a line feed: 25 bytes.
 * No zero ends the text, and an empty list has none. The per cent is 100 * candidates of the group / all, rounded to a tenth, halves
 * up: 1 of 16 is 6.3, 1 of 2,000 is 0.1, and 1 of more is 0.0. Each line is rounded by itself, so the lines need not sum up to 100.0.
 * `candidates_len` is in bytes. `out` needs 25 bytes for each group; with 25 for each candidate it is always long enough. Writes the bytes
 * written; those behind them remain. Refusals 13 for the length, 12, 13, with a map the check's, 14. */
uint8_t corbastrigo_page(const uint8_t *candidates, size_t candidates_len, uint8_t has_map, const uint8_t *map, size_t map_len,
                         uint8_t *out, size_t out_len, size_t *written);

/* The same for a map that was checked before: it is walked as it is, and with a map 1 stands in the place of the check's refusals. Of a
 * map that the check refuses a walk may abort; its candidate has group 0 then. */
uint8_t corbastrigo_page_unchecked(const uint8_t *candidates, size_t candidates_len, uint8_t has_map, const uint8_t *map, size_t map_len,
                                   uint8_t *out, size_t out_len, size_t *written);

/* The page without a map by the old numbering: corbastrigo_page with `has_map` 0 but for the groups. Refusals 13 for the length, 12, 13,
 * 14. */
uint8_t corbastrigo_old_prefix_page(const uint8_t *candidates, size_t candidates_len, uint8_t *out, size_t out_len, size_t *written);

/* ---- Filters */

/* Whether an address of 16 bytes, IPv4 in its mapped form, can be no peer on the open Internet. Writes 1 or 0. Refusal 11. */
uint8_t corbastrigo_clearnet_unroutable(const uint8_t *address, size_t address_len, uint8_t *unroutable);

/* Whether an addrv2 entry must not be relayed, by its BIP155 network id, address and port. Writes 1 or 0. Refusal 17. */
uint8_t corbastrigo_addrv2_skip_relay(uint8_t id, const uint8_t *address, size_t address_len, uint16_t port, uint8_t *skips);

/* ---- Loads. A load is a map to measure with that everyone can make again from two numbers, a seed and a number of pairs. */

/* The next draw after `s`, which is the seed or the draw before: `s` is xored with s * 2^13, then with s / 2^7 rounded down, then with
 * s * 2^17, modulo 2^64 and each time from the s just made, and the draw is s. From the seed 1 the first is 1,082,269,761. No draw is 0, so
 * that each has a next one. Refusal 20 for an `s` of 0. */
uint8_t corbastrigo_next_draw(uint64_t s, uint64_t *draw);

/* Writes the load of a seed: so many pairs of a DEFAULT and a MATCH of one bit, then a RETURN, and zeros to the end of the last byte. Each
 * takes one draw, in the order written. Of a DEFAULT and of the RETURN the number is 1 + draw mod 65,536; of a MATCH the bit is draw mod 2. So
 * a load has 2 * pairs + 1 instructions and is sane over 128 address bits, with at most 32 pairs over 32 bits too, and an address whose first
 * bits are those of its MATCHes walks through all of them. It has at most (26 * pairs + 19) / 8 bytes, rounded up: `out` with
 * CORBASTRIGO_LOAD_BYTES is always long enough. Writes the bytes written; those behind them remain. Refusals 20 for a seed of 0 or more than
 * 128 pairs, then 14. */
uint8_t corbastrigo_load(uint64_t seed, size_t pairs, uint8_t *out, size_t out_len, size_t *written);

#ifdef __cplusplus
}
#endif

#endif
