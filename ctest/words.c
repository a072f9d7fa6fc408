/* Prints each answer that a call can give and its words, on a line of their own, then each kind of a walk's end that is no abort. In C of any
 * standard, and C++; the header twice. */
#include "../include/corbastrigo.h"
#include "../include/corbastrigo.h"
#include <stdio.h>

int main(void) {
    unsigned answer, kind;
    for (answer = 0; answer < 256; answer++)
        printf("%u %s\n", answer, corbastrigo_reason((uint8_t)answer));
    for (kind = 0; kind < 256; kind++)
        if (!corbastrigo_aborted((uint8_t)kind))
            printf("ended %u\n", kind);
    return 0;
}
