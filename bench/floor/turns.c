/* SPDX-License-Identifier: MIT */
/* What the host alone does to a loop that touches no memory: the longest of COUNT turns of some
 * 2 us each. A measurement of the longest of as many calls contains it.
 * Usage: turns COUNT. Prints the picoseconds of the longest turn. */
#define _GNU_SOURCE
#include <stdint.h>
#include <stdio.h>
#include <stdlib.h>
#include <time.h>

enum { STEPS = 2000 };

static uint64_t nanoseconds(void) {
    struct timespec t;
    clock_gettime(CLOCK_MONOTONIC, &t);
    return (uint64_t)t.tv_sec * 1000000000 + (uint64_t)t.tv_nsec;
}

int main(int argc, char **argv) {
    if (argc != 2) {
        fputs("usage: turns COUNT\n", stderr);
        return 1;
    }
    uint64_t longest = 0;
    for (long i = atol(argv[1]); i > 0; i--) {
        uint64_t begin = nanoseconds();
        for (uint64_t k = 0; k < STEPS; k++)
            /* In a register, and not left out. */
            __asm__ volatile("" : "+r"(k));
        uint64_t spent = nanoseconds() - begin;
        if (spent > longest)
            longest = spent;
    }
    printf("%llu\n", (unsigned long long)longest * 1000);
    return 0;
}
