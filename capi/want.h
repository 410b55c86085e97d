/* SPDX-License-Identifier: MIT */
/* The count of a test program: WANT(condition) adds to passed, or prints the place and adds to failed. */
#ifndef WANT_H
#define WANT_H

#include <stdbool.h>
#include <stdio.h>

static unsigned passed, failed;

#define WANT(condition) want(condition, __FILE__, __LINE__, #condition)

static void want(bool is_so, const char *file, int line, const char *condition) {
    if (is_so) {
        passed++;
    } else {
        failed++;
        printf("%s:%d: not so: %s\n", file, line, condition);
    }
}

#endif
