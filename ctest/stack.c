/* How much stack each call takes: it is made on a stack of its own that was painted before, and the paint that is gone is counted, the few
 * words of the function that makes the call with it. Exits with 1 where that is as much as the header's bound, or where a call was
 * refused and so did not do its work. Linked so that memset is looked up before (-z now): the header's numbers are without that. */
#define _DEFAULT_SOURCE
#include "cases.h"
#include <sys/mman.h>
#include <ucontext.h>

#define PAGE 4096
#define STACK (32 * PAGE)
#define PAINT 0xa5
#define OF_OTHERS CORBASTRIGO_STACK_BYTES
#define OF_TWO_MAPS CORBASTRIGO_COMPARE_STACK_BYTES
#define OF_A_PICK CORBASTRIGO_PICK_STACK_BYTES
#define OF_LINES CORBASTRIGO_PAGE_STACK_BYTES

static uint8_t peers[20 * CORBASTRIGO_MAX_CANDIDATES], records[256], bytes[35], prefixes[2496], changes[2884], small, other, answer;
static uint8_t lines[CORBASTRIGO_PAGE_LINE_BYTES * CORBASTRIGO_MAX_CANDIDATES], load_bytes[CORBASTRIGO_LOAD_BYTES];
static uint8_t deep[48], built_bytes[4096];
static uint64_t occupied[CORBASTRIGO_MAX_CANDIDATES], taken[CORBASTRIGO_MAX_CANDIDATES], wide;
static uint16_t places[CORBASTRIGO_MAX_CANDIDATES];
static uint32_t number, count;
static size_t size, total, first, examined;

/* An address of the last IPv6 row, so that all rows are gone through. */
static const uint8_t embedded[16] = {0, 0x64, 0xff, 0x9b, 0, 1, 0, 0, 0, 0, 0, 0, 8, 8, 8, 8};

#define MAP two_prefixes, sizeof two_prefixes
#define MAPS MAP, lone_return, sizeof lone_return
#define PICK (peers, sizeof peers, occupied, CORBASTRIGO_MAX_CANDIDATES, CORBASTRIGO_MAX_CANDIDATES, 1, MAP, places,                    \
              CORBASTRIGO_MAX_CANDIDATES, taken, CORBASTRIGO_MAX_CANDIDATES, &total, &first, &examined, &wide)
#define OLD_PICK (peers, sizeof peers, occupied, CORBASTRIGO_MAX_CANDIDATES, CORBASTRIGO_MAX_CANDIDATES, places,                         \
                  CORBASTRIGO_MAX_CANDIDATES, taken, CORBASTRIGO_MAX_CANDIDATES, &total, &first, &examined, &wide)
#define LINES (peers, sizeof peers, 1, MAP, lines, sizeof lines, &size)

/* The calls, each with its bound and its arguments. */
#define CALLS(call)                                                                                                                    \
    call(decode_type, OF_OTHERS, (MAP, 0, &number, &size))                                                                             \
    call(decode_asn, OF_OTHERS, (MAP, 0, &number, &size))                                                                              \
    call(decode_match, OF_OTHERS, (MAP, 0, &number, &size))                                                                            \
    call(decode_jump, OF_OTHERS, (MAP, 0, &number, &size))                                                                             \
    call(decode_instruction, OF_OTHERS, (MAP, 0, &number, &count, &size))                                                              \
    call(encode_type, OF_OTHERS, (3, &wide, &size))                                                                                    \
    call(encode_asn, OF_OTHERS, (33521664, &wide, &size))                                                                              \
    call(encode_match, OF_OTHERS, (511, &wide, &size))                                                                                 \
    call(encode_jump, OF_OTHERS, (2147483632, &wide, &size))                                                                           \
    call(encode_instruction, OF_OTHERS, (CORBASTRIGO_JUMP, 2147483632, &wide, &size))                                                  \
    call(sanity_check, OF_OTHERS, (MAP, &count, &small))                                                                               \
    call(sanity_check_stop, OF_OTHERS, (MAP, &small, &size))                                                                           \
    call(interpret, OF_OTHERS, (MAP, peers + 2, 16, &small, &number, &count, &other))                                                  \
    call(unpack, OF_OTHERS, (MAP, records, sizeof records, &size))                                                                     \
    call(pack, OF_OTHERS, (records, sizeof records, bytes, sizeof bytes, &size))                                                       \
    call(list, OF_OTHERS, (MAP, prefixes, sizeof prefixes, &size))                                                                     \
    call(list_bytes, OF_OTHERS, (MAP, &size))                                                                                          \
    call(compare, OF_TWO_MAPS, (MAPS, changes, sizeof changes, &size))                                                                 \
    call(compare_bytes, OF_TWO_MAPS, (MAPS, changes, sizeof changes, &size))                                                           \
    call(sanity_check_bits, OF_OTHERS, (MAP, 128, &count, &small))                                                                     \
    call(sanity_check_stop_bits, OF_OTHERS, (MAP, 128, &small, &size))                                                                 \
    call(interpret_bits, OF_OTHERS, (MAP, peers + 2, 16, 128, &small, &number, &count, &other))                                        \
    call(unpack_bits, OF_OTHERS, (MAP, 128, records, sizeof records, &size))                                                           \
    call(list_bits, OF_OTHERS, (MAP, 128, prefixes, sizeof prefixes, &size))                                                           \
    call(list_bytes_bits, OF_OTHERS, (MAP, 128, &size))                                                                                \
    call(compare_bits, OF_TWO_MAPS, (MAPS, 128, changes, sizeof changes, &size))                                                       \
    call(compare_bytes_bits, OF_TWO_MAPS, (MAPS, 128, changes, sizeof changes, &size))                                                 \
    call(prefix_group, OF_OTHERS, (peers, 20, &wide))                                                                                  \
    call(netgroup, OF_OTHERS, (peers, 20, 1, MAP, &wide))                                                                              \
    call(netgroup_unchecked, OF_OTHERS, (peers, 20, 1, MAP, &wide))                                                                    \
    call(scan_occupied, OF_OTHERS, (UINT64_MAX, occupied, CORBASTRIGO_MAX_CANDIDATES, &small, &size, &total))                          \
    call(select_diverse, OF_A_PICK, PICK)                                                                                              \
    call(select_diverse_unchecked, OF_A_PICK, PICK)                                                                                    \
    call(old_prefix_pick, OF_A_PICK, OLD_PICK)                                                                                         \
    call(page, OF_LINES, LINES)                                                                                                        \
    call(page_unchecked, OF_LINES, LINES)                                                                                              \
    call(old_prefix_page, OF_LINES, (peers, sizeof peers, lines, sizeof lines, &size))                                                 \
    call(clearnet_unroutable, OF_OTHERS, (embedded, 16, &small))                                                                       \
    call(addrv2_skip_relay, OF_OTHERS, (2, embedded, 16, 8333, &small))                                                                \
    call(next_draw, OF_OTHERS, (CORBASTRIGO_DEFAULT_SEED, &wide))                                                                      \
    call(load, OF_OTHERS, (CORBASTRIGO_DEFAULT_SEED, CORBASTRIGO_MAX_PAIRS, load_bytes, sizeof load_bytes, &size))                     \
    call(build, OF_OTHERS, (deep, sizeof deep, 33521664, 128, built_bytes, sizeof built_bytes, &size))

#define MAKE(name, bound, arguments)                                                                                                   \
    static void name(void) { answer = corbastrigo_##name arguments; }
CALLS(MAKE)

#define ROW(name, bound, arguments) {#name, bound, name},
static const struct {
    const char *name;
    size_t bound;
    void (*make)(void);
} calls[] = {CALLS(ROW)};

static void nothing(void) {}

/* The bytes that lost their paint while a function ran. The lowest page of the stack is barred. */
static size_t used(uint8_t *stack, void (*make)(void)) {
    static ucontext_t here, there;
    size_t untouched = PAGE;
    memset(stack + PAGE, PAINT, STACK - PAGE);
    getcontext(&there);
    there.uc_stack.ss_sp = stack;
    there.uc_stack.ss_size = STACK;
    there.uc_link = &here;
    makecontext(&there, make, 0);
    swapcontext(&here, &there);
    while (untouched < STACK && stack[untouched] == PAINT)
        untouched++;
    return STACK - untouched;
}

int main(void) {
    size_t most[4] = {0, 0, 0, 0}, floor;
    uint8_t *stack = mmap(NULL, STACK, PROT_READ | PROT_WRITE, MAP_PRIVATE | MAP_ANONYMOUS, -1, 0);
    if (stack == MAP_FAILED || mprotect(stack, PAGE, PROT_NONE) != 0)
        return 2;
    for (size_t i = 0; i < CORBASTRIGO_MAX_CANDIDATES; i++) {
        candidate(peers + 20 * i, 3, 4, (uint8_t)(i >> 8), (uint8_t)i);
        occupied[i] = i * i;
    }
    /* Two addresses, so that 128 halves are open at a time. */
    listed(deep, 0, 128, 1);
    listed(deep + 24, 0xffffffff, 128, 2);
    memset(deep + 24, 0xff, 16);
    floor = used(stack, nothing);
    for (size_t i = 0; i < sizeof calls / sizeof *calls; i++) {
        const size_t bytes_used = used(stack, calls[i].make) - floor;
        const size_t bound = calls[i].bound;
        size_t *const of_kind = &most[(bound > OF_OTHERS) + (bound > OF_TWO_MAPS) + (bound > OF_A_PICK)];
        expect(answer, 0, calls[i].name, __FILE__, __LINE__);
        expect(bytes_used / bound, 0, calls[i].name, __FILE__, __LINE__);
        if (*of_kind < bytes_used)
            *of_kind = bytes_used;
    }
    printf("stack: a page took %zu bytes, a pick %zu, a comparison %zu, every other call at most %zu\n", most[3], most[2], most[1],
           most[0]);
    return failures != 0;
}
