/* SPDX-License-Identifier: MIT */
/* The memory of a cache: all of it is allocated while it is made, and none of that is moved or freed by
 * a later call, which frees what it allocates itself. Prints each call that does otherwise, and how
 * many calls were made.
 * Usage: memory [CALLS], by default 200,000. */
#include "cache_c.h"

#include <errno.h>
#include <stdio.h>
#include <stdlib.h>
#include <string.h>

enum { ROOM = 1 << 22, KEYS = 500, LONGEST = 3000 };

/* The memory of the cache, and how much of it is used. */
static _Alignas(16) unsigned char room[ROOM];
static size_t taken;
static bool is_making;

/* What the current call has allocated and not freed yet, and whether it touched the cache's memory. */
static unsigned kept, moved, freed;

static cache_tried got(void *at) { return (cache_tried){at != NULL, at ? at : room}; }

static bool is_in_room(const void *at) {
    const unsigned char *byte = at;
    return byte >= room && byte < room + ROOM;
}

cache_tried rattle_alloc(size_t n, size_t align) {
    (void)align;
    if (!is_making) {
        kept++;
        return got(malloc(n ? n : 1));
    }
    size_t whole = (n + 15) / 16 * 16;
    if (whole > ROOM - taken)
        return got(NULL);
    taken += whole;
    return got(room + taken - whole);
}

cache_tried rattle_realloc(void *at, size_t old, size_t n, size_t align) {
    if (!is_in_room(at))
        return got(realloc(at, n ? n : 1));
    if (!is_making)
        moved++;
    cache_tried more = rattle_alloc(n, align);
    if (more.ok)
        memcpy(more.at, at, old < n ? old : n);
    return more;
}

void rattle_dealloc(void *at) {
    if (is_in_room(at)) {
        freed += !is_making;
    } else {
        free(at);
        kept--;
    }
}

int rattle_errno(void) { return errno; }

static unsigned failed;

static void judge(const char *call, unsigned long number) {
    if (kept || moved || freed) {
        failed++;
        printf("call %lu, %s: %u not freed, %u of the cache moved, %u of the cache freed\n", number,
               call, kept, moved, freed);
    }
    kept = moved = freed = 0;
}

/* The same numbers in each run. */
static uint32_t drawn(uint32_t below) {
    static uint64_t state = 88172645463325252u;
    state ^= state << 13;
    state ^= state >> 7;
    state ^= state << 17;
    return (uint32_t)(state % below);
}

static void ask_one(uint8_t *at, unsigned long number) {
    static const uint32_t kinds[] = {
        CACHE_STORE, CACHE_STORE, CACHE_STORE, CACHE_ADD,  CACHE_LOOK, CACHE_EXISTS,
        CACHE_HOLD,  CACHE_COUNT, CACHE_SWAP,  CACHE_DELETE};
    static char text[LONGEST];
    char key[32];
    int len = snprintf(key, sizeof key, "key %u", drawn(KEYS));
    cache_request request = {.kind = kinds[drawn(sizeof kinds / sizeof *kinds)],
                             .value = drawn(4),
                             .ttl = drawn(3),
                             .t = number / 1000,
                             .number = drawn(64),
                             .set = drawn(64)};
    if (drawn(10000) == 0)
        request.kind = CACHE_CLEAR;
    cache_ask(at, &request, (const uint8_t *)key, (size_t)len, (const uint8_t *)text,
              drawn(LONGEST));
    judge("cache_ask", number);
}

static void tell(uint8_t *at, unsigned long number) {
    static cache_row rows[8];
    static cache_gap gaps[8];
    uint8_t bytes[64];
    cache_let_go(at, drawn(65));
    judge("cache_let_go", number);
    cache_counts counts = cache_get_counts(at);
    (void)counts;
    judge("cache_get_counts", number);
    cache_list_rows(at, drawn(66), drawn(3), rows, 8);
    judge("cache_list_rows", number);
    cache_list_gaps(at, drawn(1 << 14), gaps, 8);
    judge("cache_list_gaps", number);
    cache_copy(at, drawn(1 << 14), bytes, sizeof bytes);
    judge("cache_copy", number);
    char key[32];
    int len = snprintf(key, sizeof key, "key %u", drawn(KEYS));
    cache_find_row(at, (const uint8_t *)key, (size_t)len, number / 1000);
    judge("cache_find_row", number);
}

int main(int argc, char **argv) {
    unsigned long calls = argc > 1 ? strtoul(argv[1], NULL, 10) : 200000;
    cache_shape shape = {.words = 1 << 14, .slots = 64, .ttl = 5, .segments = 2};
    uint8_t *at = malloc(cache_size());
    is_making = true;
    uint32_t made = at ? cache_new(&shape, at) : CACHE_NO_ROOM;
    is_making = false;
    if (made != CACHE_MADE) {
        printf("no cache: %u\n", made);
        return 1;
    }
    size_t before = taken;
    for (unsigned long number = 0; number < calls; number++) {
        ask_one(at, number);
        if (number % 16 == 0)
            tell(at, number);
    }
    cache_counts counts = cache_get_counts(at);
    printf("%lu events, %llu expunges, %zu bytes for the cache; %u calls did otherwise\n", calls,
           (unsigned long long)counts.expunges, taken, failed);
    free(at);
    return failed != 0 || taken != before;
}
