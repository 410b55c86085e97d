/* SPDX-License-Identifier: MIT */
/* Each call in one process: its answers, and what it refuses. Prints each line that fails,
 * and how many did.
 * Usage: test [nulls], which tries only null pointers. */
#define _GNU_SOURCE
#include "shared_cache.h"
#include "want.h"

#include <stdio.h>
#include <stdlib.h>
#include <string.h>
#include <sys/mman.h>
#include <sys/resource.h>

/* The numbers and the layouts of the header are those that the library promises by header_is_right. */
#define AT(type, field, place) _Static_assert(offsetof(type, field) == (place), #type "." #field)
#define IS(number, value) _Static_assert((number) == (value), #number)

IS(CACHE_STORE, 0);
IS(CACHE_ADD, 1);
IS(CACHE_LOOK, 2);
IS(CACHE_EXISTS, 3);
IS(CACHE_DELETE, 4);
IS(CACHE_COUNT, 5);
IS(CACHE_SWAP, 6);
IS(CACHE_CLEAR, 7);
IS(CACHE_HOLD, 8);
IS(CACHE_NULL, 0);
IS(CACHE_BOOL, 1);
IS(CACHE_INT, 2);
IS(CACHE_STR, 3);
IS(CACHE_OTHER, 4);
IS(CACHE_ABSENT, 5);
IS(CACHE_NO, 6);
IS(CACHE_YES, 7);
IS(CACHE_NO_NUMBER, 8);
IS(CACHE_BAD, 9);
IS(CACHE_TOO_LONG, 10);
IS(CACHE_MADE, 0);
IS(CACHE_BAD_SHAPE, 1);
IS(CACHE_NO_ROOM, 2);
IS(CACHE_SEATS, 64);
IS(sizeof(cache_shape), 16);
AT(cache_shape, slots, 4);
AT(cache_shape, ttl, 8);
AT(cache_shape, segments, 12);
IS(sizeof(cache_request), 48);
AT(cache_request, value, 4);
AT(cache_request, ttl, 8);
AT(cache_request, t, 16);
AT(cache_request, number, 24);
AT(cache_request, set, 32);
AT(cache_request, hash, 40);
IS(sizeof(cache_answer), 24);
AT(cache_answer, place, 4);
AT(cache_answer, number, 8);
AT(cache_answer, len, 16);
IS(sizeof(cache_counts), 56);
AT(cache_counts, misses, 8);
AT(cache_counts, inserts, 16);
AT(cache_counts, expunges, 24);
AT(cache_counts, entries, 32);
AT(cache_counts, row_words, 40);
AT(cache_counts, free_words, 48);
IS(sizeof(cache_row), 88);
AT(cache_row, slot, 4);
AT(cache_row, key_place, 8);
AT(cache_row, key_len, 12);
AT(cache_row, ttl, 16);
AT(cache_row, size, 20);
AT(cache_row, ctime, 24);
AT(cache_row, mtime, 32);
AT(cache_row, atime, 40);
AT(cache_row, dtime, 48);
AT(cache_row, hits, 56);
AT(cache_row, value, 64);
IS(sizeof(cache_gap), 8);
AT(cache_gap, size, 4);
IS(sizeof(struct cache_view), 12);
AT(struct cache_view, rows, 4);
AT(struct cache_view, len, 8);
IS(sizeof(struct cache_found), 32);
AT(struct cache_found, place, 4);
AT(struct cache_found, number, 8);
AT(struct cache_found, len, 16);
AT(struct cache_found, row, 24);

static const cache_shape shape = {.words = 1 << 16, .slots = 64, .segments = 1};
static uint8_t *at; /* the handle */

static cache_answer ask(cache_request request, const char *key, const char *text) {
    return cache_ask(at, &request, (const uint8_t *)key, strlen(key), (const uint8_t *)text,
                     strlen(text));
}

/* Requests at a second. */
static cache_answer look(const char *key, uint64_t t) {
    return ask((cache_request){.kind = CACHE_LOOK, .t = t}, key, "");
}

static uint32_t exists(const char *key, uint64_t t) {
    return ask((cache_request){.kind = CACHE_EXISTS, .t = t}, key, "").kind;
}

static uint32_t store(const char *key, uint32_t value, uint64_t number, const char *text,
                      uint64_t t) {
    cache_request request = {.kind = CACHE_STORE, .value = value, .t = t, .number = number};
    return ask(request, key, text).kind;
}

static cache_row row_of(const char *key, uint64_t t) {
    return cache_find_row(at, (const uint8_t *)key, strlen(key), t);
}

/* Whether these bytes are at the place. */
static bool stand(uint32_t place, const char *text) {
    uint8_t found[64] = {0};
    size_t len = strlen(text);
    return len <= sizeof found && cache_copy(at, place, found, len) &&
           memcmp(found, text, len) == 0;
}

static void shapes(void) {
    static const cache_shape bad[] = {
        {.words = 0, .slots = 2, .segments = 1},
        {.words = 33, .slots = 2, .segments = 1},
        {.words = 1 << 16, .slots = 0, .segments = 1},
        {.words = 1 << 16, .slots = 3, .segments = 1},
        {.words = 1 << 16, .slots = 1 << 16, .segments = 1},
        {.words = 1 << 16, .slots = 2, .segments = 0},
        {.words = 1 << 16, .slots = 2, .segments = 65},
        {.words = UINT32_MAX, .slots = 2, .segments = 1},
    };
    uint8_t *place = malloc(cache_size());
    for (size_t i = 0; i < sizeof bad / sizeof *bad; i++)
        WANT(cache_new(&bad[i], place) == CACHE_BAD_SHAPE);
    WANT(shared_start(&bad[0]) == CACHE_BAD_SHAPE);

    /* A process that gets no more memory. */
    cache_shape large = {.words = 1 << 24, .slots = 4096, .segments = 1};
    struct rlimit whole, little;
    getrlimit(RLIMIT_AS, &whole);
    little = (struct rlimit){.rlim_cur = 64 << 20, .rlim_max = whole.rlim_max};
    setrlimit(RLIMIT_AS, &little);
    WANT(cache_new(&large, place) == CACHE_NO_ROOM);
    WANT(shared_start(&large) == CACHE_NO_ROOM);
    setrlimit(RLIMIT_AS, &whole);
    free(place);
}

static void values(void) {
    WANT(look("a", 1).kind == CACHE_ABSENT);
    WANT(store("a", CACHE_STR, 0, "hello, world", 2) == CACHE_YES);
    cache_answer a = look("a", 3);
    WANT(a.kind == CACHE_STR && a.len == 12 && stand(a.place, "hello, world"));
    WANT(store("a", CACHE_STR, 0, "", 3) == CACHE_YES);
    a = look("a", 3);
    WANT(a.kind == CACHE_STR && a.len == 0);
    WANT(store("", CACHE_STR, 0, "no key at all", 3) == CACHE_YES);
    a = look("", 3);
    WANT(a.kind == CACHE_STR && stand(a.place, "no key at all"));
    WANT(store("i", CACHE_INT, (uint64_t)INT64_MIN, "", 4) == CACHE_YES);
    a = look("i", 4);
    WANT(a.kind == CACHE_INT && a.number == INT64_MIN);
    WANT(store("b", CACHE_BOOL, 9, "", 5) == CACHE_YES);
    a = look("b", 5);
    WANT(a.kind == CACHE_BOOL && a.number == 1);
    WANT(store("b", CACHE_BOOL, 0, "", 5) == CACHE_YES);
    a = look("b", 5);
    WANT(a.kind == CACHE_BOOL && a.number == 0);
    WANT(store("z", CACHE_NULL, 0, "", 6) == CACHE_YES);
    WANT(look("z", 6).kind == CACHE_NULL);
}

static void requests(void) {
    cache_request add = {.kind = CACHE_ADD, .value = CACHE_INT, .t = 10, .number = 1};
    WANT(ask(add, "n", "").kind == CACHE_YES);
    WANT(ask(add, "n", "").kind == CACHE_NO);
    WANT(exists("n", 10) == CACHE_YES);
    WANT(exists("m", 10) == CACHE_NO);

    cache_request count = {.kind = CACHE_COUNT, .t = 11, .number = (uint64_t)-5};
    cache_answer a = ask(count, "n", "");
    WANT(a.kind == CACHE_INT && a.number == -4);
    a = ask(count, "of its own", "");
    WANT(a.kind == CACHE_INT && a.number == -5);
    WANT(ask(count, "b", "").kind == CACHE_NO_NUMBER);

    cache_request swap = {.kind = CACHE_SWAP, .t = 12, .number = 1, .set = 2};
    WANT(ask(swap, "n", "").kind == CACHE_NO);
    swap.number = (uint64_t)-4;
    WANT(ask(swap, "n", "").kind == CACHE_YES);
    WANT(ask(swap, "none", "").kind == CACHE_NO);
    a = look("n", 12);
    WANT(a.kind == CACHE_INT && a.number == 2);

    /* A row of five seconds exists in the fifth, and does not in the sixth. */
    cache_request brief = {.kind = CACHE_STORE, .value = CACHE_INT, .ttl = 5, .t = 20};
    WANT(ask(brief, "brief", "").kind == CACHE_YES);
    WANT(exists("brief", 25) == CACHE_YES);
    WANT(exists("brief", 26) == CACHE_NO);

    /* The last second, and a time that ends after it. */
    cache_request last = {.kind = CACHE_STORE, .value = CACHE_NULL, .ttl = UINT32_MAX};
    last.t = UINT64_MAX;
    WANT(ask(last, "last", "").kind == CACHE_YES);
    WANT(exists("last", UINT64_MAX) == CACHE_YES);
    WANT(exists("last", 0) == CACHE_YES);

    /* A sum that no integer holds. */
    cache_request most = {.kind = CACHE_COUNT, .t = 21, .number = (uint64_t)INT64_MAX};
    WANT(ask(most, "much", "").number == INT64_MAX);
    a = ask((cache_request){.kind = CACHE_COUNT, .t = 21, .number = 2}, "much", "");
    WANT(a.kind == CACHE_INT && a.number == INT64_MIN + 1);

    cache_request delete = {.kind = CACHE_DELETE, .t = 21};
    WANT(ask(delete, "n", "").kind == CACHE_YES);
    WANT(ask(delete, "n", "").kind == CACHE_NO);
    WANT(look("n", 21).kind == CACHE_ABSENT);

    /* A value that is larger than the cache drops no row. */
    size_t len = 8 * (size_t)shape.words;
    char *large = malloc(len + 1);
    memset(large, 'x', len);
    large[len] = '\0';
    WANT(store("large", CACHE_STR, 0, large, 22) == CACHE_NO);
    WANT(exists("i", 22) == CACHE_YES);
    free(large);
}

/* Information about a row and about all: every row has its place once, and rows, gaps and slots are
 * all words. */
static void told(void) {
    WANT(store("told", CACHE_STR, 0, "a text", 30) == CACHE_YES);
    look("told", 31);
    look("told", 32);
    cache_row row = row_of("told", 33);
    WANT(row.place != 0 && row.slot < shape.slots && row.key_len == 4);
    WANT(stand(row.key_place, "told") && stand(row.value.place, "a text"));
    WANT(row.value.kind == CACHE_STR && row.value.len == 6);
    WANT(row.ctime == 30 && row.mtime == 30 && row.atime == 32 && row.hits == 2);
    WANT(row.ttl == 0 && row.dtime == 0 && row.size >= 2);
    WANT(row_of("told", 33).hits == 2);
    WANT(row_of("brief", 25).ttl == 5);
    WANT(row_of("brief", 26).place == 0);
    WANT(row_of("nobody", 33).place == 0);

    cache_counts counts = cache_get_counts(at);
    cache_row rows[8] = {0};
    uint64_t all = 0, words = 0;
    bool found = false;
    for (uint32_t slot = 0; slot <= shape.slots; slot++) {
        uint64_t n, skip = 0;
        /* Three at a time, to see that the next ones follow. */
        for (; (n = cache_list_rows(at, slot, skip, rows, 3)) > 0; skip += n)
            for (uint64_t i = 0; i < n; i++) {
                all++;
                words += rows[i].size;
                found = found || (rows[i].place == row.place && slot == row.slot);
                WANT(rows[i].slot == slot || slot == shape.slots);
            }
    }
    WANT(found);
    WANT(all == counts.entries && words == counts.row_words);
    WANT(cache_list_rows(at, shape.slots + 1, 0, rows, 8) == 0);
    WANT(cache_list_rows(at, row.slot, 0, rows, 0) == 0);

    /* The same rows by calls that list many slots. */
    struct cache_listing listing = {0, 0};
    uint64_t again = 0, again_words = 0;
    for (uint32_t from = 0; from <= shape.slots; from = listing.next) {
        cache_list_slots(at, from, shape.slots + 1, rows, 8, &listing);
        for (uint64_t i = 0; i < listing.count; i++) {
            again++;
            again_words += rows[i].size;
            WANT(rows[i].slot >= from && rows[i].slot < listing.next);
        }
        WANT(listing.next > from && listing.next <= shape.slots + 1);
        if (listing.next <= from)
            break;
    }
    WANT(again == all && again_words == words);
    cache_list_slots(at, row.slot, row.slot + 1, rows, 0, &listing);
    WANT(listing.next == row.slot && listing.count == 0);
    cache_list_slots(at, 5, 5, rows, 8, &listing);
    WANT(listing.next == 5 && listing.count == 0);

    cache_gap gap = {0};
    uint64_t free_words = 0;
    for (uint32_t from = 0; cache_list_gaps(at, from, &gap, 1) == 1; from = gap.place + 1)
        free_words += gap.size;
    WANT(free_words == counts.free_words);
    WANT(cache_list_gaps(at, shape.words, &gap, 1) == 0);
    WANT(cache_list_gaps(at, 0, &gap, 0) == 0);

    look("told", 34);
    look("nobody", 34);
    cache_counts later = cache_get_counts(at);
    WANT(later.hits == counts.hits + 1 && later.misses == counts.misses + 1);
    store("told", CACHE_INT, 1, "", 34);
    WANT(cache_get_counts(at).inserts == counts.inserts + 1);

    WANT(ask((cache_request){.kind = CACHE_CLEAR, .t = 35}, "", "").kind == CACHE_YES);
    counts = cache_get_counts(at);
    WANT(counts.entries == 0 && counts.row_words == 0 && counts.hits == 0 && counts.misses == 0);
    WANT(exists("told", 35) == CACHE_NO);
}

/* Whether the text that a fetch by this seat finds is held: it does not change when its row is dropped. */
static bool holds(uint64_t seat, uint64_t least) {
    cache_row row;
    store("held", CACHE_STR, 0, "a text", 30);
    cache_request hold = {.kind = CACHE_HOLD, .t = 30, .number = seat, .set = least};
    cache_answer found = ask(hold, "held", "");
    WANT(found.kind == CACHE_STR && found.len == 6 && stand(found.place, "a text"));
    WANT(ask((cache_request){.kind = CACHE_DELETE, .t = 30}, "held", "").kind == CACHE_YES);
    bool is_held = cache_list_rows(at, shape.slots, 0, &row, 1) == 1;
    WANT(!is_held || (row.value.place == found.place && stand(found.place, "a text")));
    return is_held;
}

/* Seats, and what they hold. */
static void seats(void) {
    cache_row row;
    for (uint32_t seat = 0; seat < CACHE_SEATS; seat++) {
        WANT(holds(seat, 6));
        WANT(cache_let_go(at, seat) && cache_let_go(at, seat));
        /* What is released is freed by the next store. */
        WANT(store("held", CACHE_INT, 1, "", 30) == CACHE_YES);
        WANT(cache_list_rows(at, shape.slots, 0, &row, 1) == 0);
    }
    WANT(!holds(CACHE_SEATS, 0) && !holds(UINT64_MAX, 0) && !holds(0, 7));
    WANT(!cache_let_go(at, CACHE_SEATS) && !cache_let_go(at, UINT32_MAX));
    store("held", CACHE_INT, 1, "", 30);
    cache_request hold = {.kind = CACHE_HOLD, .t = 30};
    WANT(ask(hold, "held", "").kind == CACHE_INT && ask(hold, "none", "").kind == CACHE_ABSENT);
    WANT(ask((cache_request){.kind = CACHE_DELETE, .t = 30}, "held", "").kind == CACHE_YES);
    WANT(cache_list_rows(at, shape.slots, 0, &row, 1) == 0);
}

/* Calls that are not allowed, and their answers; none of them changes the cache. */
static void refused(void) {
    const uint8_t *key = (const uint8_t *)"k";
    cache_request fetch = {.kind = CACHE_LOOK, .t = 40};
    cache_request put = {.kind = CACHE_STORE, .value = CACHE_STR, .t = 40};
    store("k", CACHE_STR, 0, "kept", 40);

    WANT(ask((cache_request){.kind = 9, .t = 40}, "k", "").kind == CACHE_BAD);
    WANT(ask((cache_request){.kind = UINT32_MAX, .t = 40}, "k", "").kind == CACHE_BAD);
    WANT(store("k", 4, 0, "", 40) == CACHE_BAD);
    WANT(store("k", UINT32_MAX, 0, "", 40) == CACHE_BAD);

    /* Four gigabytes that must not be read. */
    size_t long_len = (size_t)1 << 32;
    uint8_t *long_text =
        mmap(NULL, long_len, PROT_NONE, MAP_PRIVATE | MAP_ANONYMOUS | MAP_NORESERVE, -1, 0);
    WANT(long_text != MAP_FAILED);
    WANT(cache_ask(at, &fetch, long_text, long_len, key, 0).kind == CACHE_TOO_LONG);
    WANT(cache_ask(at, &put, key, 1, long_text, long_len).kind == CACHE_TOO_LONG);
    WANT(cache_find_row(at, long_text, long_len, 40).place == 0);
    WANT(!cache_copy(at, 0, long_text, long_len));
    munmap(long_text, long_len);

    cache_answer kept = look("k", 40);
    uint8_t out[8] = {0};
    WANT(kept.kind == CACHE_STR && stand(kept.place, "kept"));
    WANT(!cache_copy(at, shape.words, out, 1));
    WANT(!cache_copy(at, UINT32_MAX, out, 8));
    WANT(cache_copy(at, shape.words - 1, out, 8));
    WANT(cache_copy(at, kept.place, out, 0));
}

static uint64_t hash_of(const char *key) {
    return cache_hash((const uint8_t *)key, strlen(key));
}

/* The hash of a key, and requests that have it. */
static void hashes(void) {
    WANT(hash_of("") == 0x8000000000001505);
    WANT(hash_of("a") == 0x800000000002b606);
    WANT(hash_of("key") == 0x800000000b88878e);
    WANT(hash_of("a key of more than eight bytes") == 0xa0eef71aec69cc1a);
    WANT(hash_of("\377\377\377\377\377\377\377\377\377") == 0x837891c16250bf1c);
    cache_request put = {.kind = CACHE_STORE, .value = CACHE_INT, .t = 60, .number = 6};
    put.hash = hash_of("hashed");
    WANT(cache_ask_hashed(at, &put, (const uint8_t *)"hashed", 6, NULL, 0).kind == CACHE_YES);
    WANT(look("hashed", 60).number == 6);
    cache_request fetch = {.kind = CACHE_LOOK, .t = 60, .hash = hash_of("hashed")};
    WANT(cache_ask_hashed(at, &fetch, (const uint8_t *)"hashed", 6, NULL, 0).number == 6);
    /* cache_ask computes it, whatever the request has */
    fetch.hash = 7;
    WANT(cache_ask(at, &fetch, (const uint8_t *)"hashed", 6, NULL, 0).number == 6);
    WANT(fetch.hash == 7);
}

/* Each call with each null pointer, and with lengths that no slice has; none of it changes the cache. */
static void nulls(void) {
    const uint8_t *key = (const uint8_t *)"k";
    const size_t longest = (size_t)1 << 63;
    cache_request fetch = {.kind = CACHE_LOOK, .t = 50};
    cache_request put = {.kind = CACHE_STORE, .value = CACHE_STR, .t = 50};
    cache_row row = {.place = 7};
    cache_gap gap = {.size = 7};
    uint8_t byte = 7;
    store("k", CACHE_STR, 0, "kept", 50);
    cache_counts before = cache_get_counts(at);

    WANT(cache_new(NULL, at) == CACHE_NO_POINTER);
    WANT(cache_new(&shape, NULL) == CACHE_NO_POINTER);
    WANT(cache_new(NULL, NULL) == CACHE_NO_POINTER);
    WANT(shared_start(NULL) == CACHE_NO_POINTER);
    WANT(cache_ask(NULL, &fetch, key, 1, key, 0).kind == CACHE_BAD);
    WANT(cache_ask(at, NULL, key, 1, key, 0).kind == CACHE_BAD);
    WANT(cache_ask(at, &fetch, NULL, 1, key, 0).kind == CACHE_BAD);
    WANT(cache_ask(at, &put, key, 1, NULL, 1).kind == CACHE_BAD);
    WANT(cache_ask(at, &put, key, 1, NULL, SIZE_MAX).kind == CACHE_BAD);
    WANT(cache_ask(at, &fetch, key, longest, key, 0).kind == CACHE_TOO_LONG);
    WANT(cache_ask(at, &put, key, 1, key, SIZE_MAX).kind == CACHE_TOO_LONG);
    WANT(cache_ask_hashed(NULL, &fetch, key, 1, key, 0).kind == CACHE_BAD);
    WANT(cache_ask_hashed(at, NULL, key, 1, key, 0).kind == CACHE_BAD);
    WANT(cache_ask_hashed(at, &fetch, NULL, 1, key, 0).kind == CACHE_BAD);
    WANT(cache_ask_hashed(at, &fetch, key, longest, key, 0).kind == CACHE_TOO_LONG);
    WANT(cache_hash(NULL, 1) == 0 && cache_hash(key, longest) == 0);
    WANT(cache_hash(NULL, 0) == 0x8000000000001505);
    WANT(!cache_let_go(NULL, 0));
    WANT(!cache_copy(NULL, 0, &byte, 1));
    WANT(!cache_copy(at, 0, NULL, 1));
    WANT(!cache_copy(at, 0, &byte, longest));
    cache_counts none = cache_get_counts(NULL);
    WANT(none.hits == 0 && none.misses == 0 && none.inserts == 0 && none.expunges == 0);
    WANT(none.entries == 0 && none.row_words == 0 && none.free_words == 0);
    WANT(cache_find_row(NULL, key, 1, 50).place == 0);
    WANT(cache_find_row(NULL, key, 1, 50).value.kind == CACHE_ABSENT);
    WANT(cache_find_row(at, NULL, 1, 50).place == 0);
    WANT(cache_find_row(at, key, longest, 50).place == 0);
    uint32_t slot = row_of("k", 50).slot;
    WANT(cache_list_rows(NULL, slot, 0, &row, 1) == 0);
    WANT(cache_list_rows(at, slot, 0, NULL, 1) == 0);
    WANT(cache_list_rows(at, slot, 0, &row, longest / sizeof row + 1) == 0);
    struct cache_listing listing = {7, 7};
    cache_list_slots(at, slot, slot + 1, &row, 1, NULL);
    cache_list_slots(NULL, slot, slot + 1, &row, 1, &listing);
    WANT(listing.next == slot && listing.count == 0);
    cache_list_slots(at, slot, slot + 1, NULL, 1, &listing);
    WANT(listing.next == slot && listing.count == 0);
    cache_list_slots(at, slot, slot + 1, &row, longest / sizeof row + 1, &listing);
    WANT(listing.next == slot && listing.count == 0);
    WANT(cache_list_gaps(NULL, 0, &gap, 1) == 0);
    WANT(cache_list_gaps(at, 0, NULL, 1) == 0);
    WANT(cache_list_gaps(at, 0, &gap, longest / sizeof gap) == 0);
    WANT(row.place == 7 && gap.size == 7 && byte == 7);

    cache_counts after = cache_get_counts(at);
    WANT(memcmp(&before, &after, sizeof before) == 0);

    /* A null pointer with length 0 is no bytes. */
    WANT(look("", 50).kind == CACHE_ABSENT);
    WANT(cache_ask(at, &put, NULL, 0, NULL, 0).kind == CACHE_YES);
    cache_answer empty = cache_ask(at, &fetch, NULL, 0, NULL, 0);
    WANT(empty.kind == CACHE_STR && empty.len == 0);
    WANT(look("", 50).kind == CACHE_STR);
    WANT(cache_find_row(at, NULL, 0, 50).place == row_of("", 50).place);
    WANT(row_of("", 50).place != 0);
    WANT(cache_copy(at, empty.place, NULL, 0));
    WANT(!cache_copy(at, UINT32_MAX, NULL, 0));
    WANT(cache_list_rows(at, slot, 0, NULL, 0) == 0);
    WANT(cache_list_gaps(at, 0, NULL, 0) == 0);
    cache_answer kept = look("k", 50);
    WANT(kept.kind == CACHE_STR && kept.len == 4 && stand(kept.place, "kept"));
}

/* Shared look-ups of a key that is none: no event, so nothing is counted. */
static void null_fetches(void) {
    const uint8_t *key = (const uint8_t *)"k";
    const size_t longest = (size_t)1 << 63;
    uint8_t text[8];
    cache_counts before = cache_get_counts(shared_enter());
    shared_leave();
    WANT(shared_fetch(NULL, 1, 50, text, sizeof text).kind == CACHE_BAD);
    WANT(shared_fetch(key, longest, 50, text, sizeof text).kind == CACHE_TOO_LONG);
    WANT(!shared_exists(NULL, 1, 50) && !shared_exists(key, longest, 50));
    WANT(shared_exists(key, 1, 50) && shared_exists(NULL, 0, 50));
    cache_counts after = cache_get_counts(shared_enter());
    shared_leave();
    WANT(memcmp(&before, &after, sizeof before) == 0);
    WANT(shared_fetch(key, 1, 50, text, sizeof text).len == 4);
    WANT(shared_fetch((const uint8_t *)"n", 1, 50, text, sizeof text).kind == CACHE_ABSENT);
    after = cache_get_counts(shared_enter());
    shared_leave();
    WANT(after.hits == before.hits + 1 && after.misses == before.misses + 1);
}

int main(int argc, char **argv) {
    bool only_nulls = argc > 1 && strcmp(argv[1], "nulls") == 0;
    WANT(strcmp(cache_c_version(), CACHE_C_VERSION) == 0);
    uint32_t made = shared_start(&shape);
    WANT(made == CACHE_MADE);
    if (made == CACHE_MADE) {
        at = shared_enter();
        if (only_nulls) {
            nulls();
        } else {
            values();
            requests();
            told();
            seats();
            hashes();
            refused();
        }
        shared_leave();
        if (only_nulls)
            null_fetches();
        shared_end();
    }
    if (!only_nulls)
        shapes();
    printf("%u passed, %u failed\n", passed, failed);
    return failed != 0;
}
