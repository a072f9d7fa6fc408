/* A program of somebody who has only the installed files: prints the version, and what the check says of a map that is cut. */
#include <corbastrigo.h>
#include <stdio.h>

int main(void) {
    const uint8_t map[1] = {0xfb};
    uint32_t count;
    uint8_t depth;
    printf("%s: %s\n", CORBASTRIGO_VERSION, corbastrigo_reason(corbastrigo_sanity_check(map, sizeof map, &count, &depth)));
    return 0;
}
