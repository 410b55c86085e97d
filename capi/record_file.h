/* SPDX-License-Identifier: MIT */
/* The file in which the extension for PHP records the calls of its cache (apc.record_dir), and which
 * apcu_replay reads.
 *
 * It begins with a head of text, which ends with an empty line:
 *
 *     apcu record 2
 *     server 6d1fd8a3b54c01e2    (a number of this start of the server)
 *     shm-size 33554432
 *     slots 4096
 *     ttl 0
 *     values 1                   (0: strings have only their lengths)
 *
 * The events of the cache follow in their order, each a record_event in the byte order of
 * x86_64 and aarch64, followed by the bytes of its key, then those of the string that is stored
 * or answered, if the head says values 1. A string has a byte at its end by which the extension
 * knows its type. */
#ifndef RECORD_FILE_H
#define RECORD_FILE_H

#include "cache_c.h"

#define RECORD_NAME "apcu record 2\n"

/* More than a head has. */
enum { RECORD_HEAD = 256 };

/* A kind that is no request: a process died in a call, and an empty cache replaced this one. */
enum { RECORD_REMADE = 255 };

typedef struct {
    uint64_t t;       /* the second of the call */
    uint64_t number;  /* a number that is stored, or the length of a string; the step of a count; what
                       * a swap expects */
    uint64_t set;     /* the ttl of a store or a count; what a swap sets */
    uint64_t answer;  /* a number that is answered, or the length of a string; otherwise 0 */
    uint32_t event;   /* the lowest 32 bits of the event's number; the first one is 0 */
    uint32_t process; /* the process of the call */
    uint32_t key_len;
    uint8_t kind;  /* a request, or RECORD_REMADE */
    uint8_t value; /* the kind of value that a store stores; otherwise 0 */
    uint8_t reply; /* the kind of the answer */
    uint8_t zero;
} record_event;

_Static_assert(sizeof(record_event) == 48, "no byte between the fields");

/* Whether this event has the length of a string that is stored or answered. */
static inline bool record_stores_text(const record_event *e) {
    return (e->kind == CACHE_STORE || e->kind == CACHE_ADD) && e->value == CACHE_STR;
}

static inline bool record_answers_text(const record_event *e) {
    return e->kind == CACHE_LOOK && e->reply == CACHE_STR;
}

#endif
