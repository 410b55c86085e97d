/* SPDX-License-Identifier: MIT */
/* The calls that are measured, of this repository's engine and of APCu's. */
#ifndef CALLS_H
#define CALLS_H

#include "php.h"

#include <stdbool.h>
#include <stdint.h>

/* Kinds of rows, by what they hold: texts of these sizes, an integer, and one that is counted. */
enum { EIGHT, HUNDRED, INTEGER, COUNTER, TEN_KB, ONE_MB, KINDS };

/* One call under a key, with a value if it needs one: whether it returned what was expected. */
typedef bool call(zend_string *key, zval *value);

struct measure {
    const char *name;
    int kind; /* of the rows that are called */
    call *ours, *apcus;
    bool is_half;    /* what the next one makes whole again, on the same side */
    bool is_at_once; /* it is measured in several processes, too */
};

/* The last one has no name. */
extern const struct measure measures[];

/* The handle of our cache, and whether our calls take its lock. */
extern uint8_t *handle;
extern bool is_locked;

/* Before the first call. */
void begin_calls(void);

/* Stores a row in both caches. */
bool store_on_both(zend_string *key, zval *value);

#endif
