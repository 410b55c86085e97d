/* SPDX-License-Identifier: MIT */
/* A cache of WORDS words is filled to the last gap, and all of it is read again.
 * Usage: full WORDS. Ends with status 77 if the library supports no shape of this many words. */
#define _GNU_SOURCE
#include "shared_cache.h"

#include <stdio.h>
#include <stdlib.h>
#include <string.h>

enum { NO_SHAPE = 77, LONGEST = 1 << 20, ROW = 64 /* words of a row besides its text, or fewer */ };

static uint8_t *at;

static cache_answer ask(cache_request request, unsigned number, const uint8_t *text, size_t len) {
    char key[16];
    size_t key_len = (size_t)snprintf(key, sizeof key, "k%u", number);
    request.t = 1;
    return cache_ask(at, &request, (const uint8_t *)key, key_len, text, len);
}

/* The text of a number, in which no two groups of eight bytes are equal. */
static void write_text(uint64_t *text, size_t len, unsigned number) {
    for (size_t i = 0; i < (len + 7) / 8; i++)
        text[i] = ((uint64_t)number << 32 | i) * 0x9E3779B97F4A7C15u;
}

int main(int argc, char **argv) {
    static uint64_t text[LONGEST / 8], found[LONGEST / 8];
    static const size_t lens[] = {LONGEST, 10000, 1000, 20};
    cache_shape shape = {.slots = 4096, .segments = 1};
    shape.words = argc > 1 ? (uint32_t)strtoul(argv[1], NULL, 10) : 1 << 24;
    uint32_t made = shared_start(&shape);
    if (made == CACHE_BAD_SHAPE) {
        printf("the library takes no shape of %lu words\n", (unsigned long)shape.words);
        return NO_SHAPE;
    }
    if (made != CACHE_MADE) {
        puts("no memory");
        return 1;
    }
    at = shared_enter();

    unsigned number = 0, after[sizeof lens / sizeof *lens];
    bool is_good = true;
    for (size_t i = 0; i < sizeof lens / sizeof *lens; i++) {
        while (is_good && cache_get_counts(at).free_words >= (lens[i] + 7) / 8 + ROW) {
            write_text(text, lens[i], number);
            cache_request store = {.kind = CACHE_STORE, .value = CACHE_STR};
            is_good = ask(store, number++, (uint8_t *)text, lens[i]).kind == CACHE_YES;
        }
        after[i] = number;
    }
    cache_counts counts = cache_get_counts(at);
    printf("%llu words, of which %llu are free after %u texts\n", (unsigned long long)shape.words,
           (unsigned long long)counts.free_words, number);
    is_good = is_good && counts.entries == number && counts.expunges == 0;

    uint32_t last = 0; /* the highest place of a text */
    for (unsigned i = 0, size = 0; is_good && i < number; i++) {
        while (i >= after[size])
            size++;
        size_t len = lens[size];
        cache_answer a = ask((cache_request){.kind = CACHE_LOOK}, i, (uint8_t *)text, 0);
        write_text(text, len, i);
        is_good = a.kind == CACHE_STR && a.len == len &&
                  cache_copy(at, a.place, (uint8_t *)found, len) && memcmp(found, text, len) == 0;
        last = a.place > last ? a.place : last;
    }
    shared_leave();
    printf("all read back, the last at word %u\n", last);
    is_good = is_good && last > shape.words - shape.words / 16;
    puts(is_good ? "as it should be" : "not as it should be");
    return is_good ? 0 : 1;
}
