/* What the tests of the calls share: answers that are held to those written beside them, a few maps, candidates, and records of prefixes. */
#include "../include/corbastrigo.h"
#include <stdio.h>
#include <string.h>

static int checks, failures;

static void expect(uint64_t got, uint64_t wanted, const char *what, const char *file, int line) {
    checks++;
    if (got != wanted) {
        failures++;
        printf("%s:%d: %s is %llu, not %llu\n", file, line, what, (unsigned long long)got, (unsigned long long)wanted);
    }
}

#define IS(got, wanted) expect((uint64_t)(got), (uint64_t)(wanted), #got, __FILE__, __LINE__)

/* What the n-th number or slice that is lent to a call holds before it: a refused call leaves it. */
#define BEFORE(n) (70 + (n))

/* 1.2.0.0/16 is sent to 1, 3.4.0.0/16 to 2. */
static const uint8_t two_prefixes[35] = {0xfb, 0x03, 0xec, 0x0f, 0xb0, 0x3f, 0xc0, 0xfe, 0x00, 0xfb, 0x03, 0xec,
                                         0x0f, 0xb0, 0x3f, 0xc0, 0xfe, 0x00, 0xfb, 0x03, 0xec, 0x0f, 0xb0, 0xff,
                                         0xff, 0xfe, 0xff, 0xfb, 0x80, 0x00, 0x00, 0x00, 0x00, 0x00, 0x01};
/* The same without the 96 mapped bits, for width 32. */
static const uint8_t two_narrow[8] = {0xfb, 0x80, 0x00, 0x00, 0x00, 0x00, 0x00, 0x01};
static const uint8_t lone_return[3] = {0, 0, 0};
static const uint8_t lone_jump[1] = {1};
/* Cut by the map's end: an opcode, of which one bit stands behind a MATCH of 00; and the operand of a MATCH. */
static const uint8_t cut_opcode[1] = {0x8b};
static const uint8_t cut_operand[1] = {0xfb};

static void mapped(uint8_t *address, uint8_t a, uint8_t b, uint8_t c, uint8_t d) {
    const uint8_t bytes[16] = {0, 0, 0, 0, 0, 0, 0, 0, 0, 0, 0xff, 0xff, a, b, c, d};
    memcpy(address, bytes, 16);
}

static void candidate(uint8_t *bytes, uint8_t a, uint8_t b, uint8_t c, uint8_t d) {
    bytes[0] = 4;
    bytes[1] = 0;
    mapped(bytes + 2, a, b, c, d);
    bytes[18] = 0x20;
    bytes[19] = 0x8d;
}

/* A record of a prefix whose first four bytes are given; at width 32 these are the address. */
static void listed(uint8_t *record, uint32_t first_bytes, uint8_t length, uint32_t number) {
    memset(record, 0, CORBASTRIGO_PREFIX_RECORD_BYTES);
    for (unsigned i = 0; i < 4; i++) {
        record[i] = (uint8_t)(first_bytes >> (24 - 8 * i));
        record[20 + i] = (uint8_t)(number >> 8 * i);
    }
    record[16] = length;
}

/* The calls that read a code, the two picks, and the two pages. */
typedef uint8_t decode(const uint8_t *, size_t, size_t, uint32_t *, size_t *);
typedef uint8_t selection(const uint8_t *, size_t, const uint64_t *, size_t, size_t, uint8_t, const uint8_t *, size_t, uint16_t *,
                          size_t, uint64_t *, size_t, size_t *, size_t *, size_t *, uint64_t *);
typedef uint8_t printing(const uint8_t *, size_t, uint8_t, const uint8_t *, size_t, uint8_t *, size_t, size_t *);
