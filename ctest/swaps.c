/* Whether calls.c tells the parameters of each call apart. It is run for every two parameters of every call (swaps.awk), each time with
 * these two exchanged on their way to the library, and must fail, by a wrong answer or a crash. Exits with 1 where it passes. */
#define _POSIX_C_SOURCE 200809L
#include "../include/corbastrigo.h"
#include <stdio.h>
#include <sys/types.h>
#include <sys/wait.h>
#include <unistd.h>

typedef uintptr_t word;

/* The swap that is tried; 0 is none. */
static size_t swap;

#include "swaps.h"

#define main calls
#include "calls.c"
#undef main

/* Whether calls.c passes, in a process of its own, with the swap. */
static int passes(void) {
    int status = 1;
    pid_t child;
    fflush(stdout);
    child = fork();
    if (child == 0) {
        alarm(60);
        _exit(freopen("/dev/null", "w", stdout) == NULL || calls() != 0);
    }
    return child > 0 && waitpid(child, &status, 0) == child && status == 0;
}

int main(void) {
    const size_t count = sizeof swaps / sizeof *swaps - 1;
    size_t unseen = 0;
    if (!passes()) {
        printf("ctest/swaps.c: calls.c fails with nothing exchanged\n");
        return 1;
    }
    for (swap = 1; swap <= count; swap++)
        if (passes()) {
            unseen++;
            printf("ctest/swaps.c: calls.c does not see %s\n", swaps[swap]);
        }
    printf("calls from C: %zu swaps of two parameters, %zu not seen\n", count, unseen);
    return count == 0 || unseen != 0;
}
