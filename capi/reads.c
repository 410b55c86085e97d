/* SPDX-License-Identifier: MIT */
/* Two caches get the same requests: one by cache_ask, the other by shared look-ups, which are counted
 * later. Each answer, each row and each count must be the same. Prints each line that fails, and
 * how many did. */
#define _GNU_SOURCE
#include "cache_c.h"

#include <errno.h>
#include <stdio.h>
#include <stdlib.h>
#include <string.h>

enum { KEYS = 300, ROUNDS = 2000, MOST_USES = 64, SECONDS = 40 };

static const cache_shape shape = {.words = 1 << 16, .slots = 64, .ttl = 0, .segments = 1};
static uint64_t *words_got; /* the last memory of as many bytes as the words take */
static unsigned passed, failed;

#define WANT(condition) want(condition, __LINE__, #condition)

static void want(bool is_so, int line, const char *condition) {
    if (is_so) {
        passed++;
    } else if (failed++ < 20) {
        printf("reads.c:%d: not so: %s\n", line, condition);
    }
}

cache_tried rattle_alloc(size_t size, size_t align) {
    static char none;
    void *at = NULL;
    if (posix_memalign(&at, align < sizeof(void *) ? sizeof(void *) : align, size ? size : 1) != 0)
        return (cache_tried){false, &none};
    memset(at, 0, size);
    if (size == 8 * (size_t)shape.words)
        words_got = at;
    return (cache_tried){true, at};
}

cache_tried rattle_realloc(void *at, size_t kept, size_t size, size_t align) {
    cache_tried more = rattle_alloc(size, align);
    if (!more.ok)
        return (cache_tried){false, at};
    memcpy(more.at, at, kept < size ? kept : size);
    free(at);
    return more;
}

void rattle_dealloc(void *at) {
    free(at);
}

int rattle_errno(void) {
    return errno;
}

struct cache {
    uint8_t *at;
    const uint64_t *words;
};

static struct cache new_cache(void) {
    struct cache made = {aligned_alloc(16, (cache_size() + 15) / 16 * 16), NULL};
    WANT(made.at && cache_new(&shape, made.at) == CACHE_MADE);
    made.words = words_got;
    return made;
}

static size_t write_key(char key[64], unsigned number) {
    int len = snprintf(key, 64, "%s:%u", number % 2 ? "a longer name of a key" : "k", number);
    return (size_t)len;
}

/* The bytes of a string's answer in these words are this many of the text. */
static bool is_text(const uint64_t *words, uint32_t place, uint64_t len, const char *text,
                    size_t text_len) {
    return len == text_len && memcmp(words + place, text, text_len) == 0;
}

static bool is_same_row(const struct cache *one, const struct cache *other, unsigned number,
                        uint64_t t) {
    char key[64];
    size_t len = write_key(key, number);
    cache_row a = cache_find_row(one->at, (const uint8_t *)key, len, t);
    cache_row b = cache_find_row(other->at, (const uint8_t *)key, len, t);
    return a.place == b.place && a.slot == b.slot && a.ctime == b.ctime && a.mtime == b.mtime &&
           a.atime == b.atime && a.hits == b.hits && a.ttl == b.ttl && a.size == b.size;
}

static bool is_same_cache(const struct cache *one, const struct cache *other, uint64_t t) {
    cache_counts a = cache_get_counts(one->at), b = cache_get_counts(other->at);
    bool same = memcmp(&a, &b, sizeof a) == 0;
    for (unsigned number = 0; number < KEYS; number++)
        same = same && is_same_row(one, other, number, t);
    return same;
}

int main(void) {
    struct cache one = new_cache(), other = new_cache();
    uint64_t state = 88172645463325252u;
    for (unsigned round = 0; round < ROUNDS; round++) {
        uint64_t t = 1000 + round * SECONDS / ROUNDS;
        /* a store, a count or a delete of both */
        state ^= state << 13, state ^= state >> 7, state ^= state << 17;
        char key[64], text[512];
        size_t len = write_key(key, (unsigned)(state >> 20) % KEYS);
        size_t text_len = (state >> 40) % sizeof text;
        memset(text, 'a' + (int)(state % 26), text_len);
        static const uint32_t kinds[] = {CACHE_STORE, CACHE_STORE, CACHE_STORE, CACHE_COUNT,
                                         CACHE_DELETE};
        cache_request change = {.kind = kinds[(state >> 33) % 5], .t = t, .number = state >> 50};
        change.value = (state >> 36) % 3 ? CACHE_STR : CACHE_INT;
        change.ttl = (state >> 38) % 3 ? 0 : 5;
        cache_answer a = cache_ask(one.at, &change, (uint8_t *)key, len, (uint8_t *)text, text_len);
        cache_answer b =
            cache_ask(other.at, &change, (uint8_t *)key, len, (uint8_t *)text, text_len);
        WANT(a.kind == b.kind && a.number == b.number);

        /* fetches: in one cache they are events, in the other they are counted after them */
        uint32_t rows[MOST_USES];
        size_t uses = 0;
        uint64_t misses = 0;
        struct cache_view view;
        cache_get_view(other.at, &view);
        WANT(view.slots == shape.slots && view.len == shape.words);
        WANT(view.rows == cache_get_counts(other.at).entries);
        for (unsigned i = 0; i < MOST_USES; i++) {
            state ^= state << 13, state ^= state >> 7, state ^= state << 17;
            len = write_key(key, (unsigned)(state >> 20) % KEYS);
            cache_request fetch = {.kind = CACHE_LOOK, .t = t};
            a = cache_ask(one.at, &fetch, (uint8_t *)key, len, NULL, 0);
            struct cache_found found;
            cache_find_shared(&view, other.words, view.len, (uint8_t *)key, len,
                              cache_hash((uint8_t *)key, len), t, &found);
            WANT(a.kind == found.kind && a.number == found.number && a.len == found.len);
            WANT(a.place == found.place);
            if (a.kind == CACHE_STR)
                WANT(is_text(other.words, found.place, found.len, (const char *)(one.words + a.place),
                             a.len));
            WANT((found.row == 0) == (found.kind == CACHE_ABSENT));
            if (found.row)
                rows[uses++] = found.row;
            else
                misses++;
        }
        /* in another order than that of the look-ups */
        for (size_t i = 0; i + 1 < uses; i += 2) {
            uint32_t row = rows[i];
            rows[i] = rows[i + 1];
            rows[i + 1] = row;
        }
        WANT(cache_count(other.at, rows, uses, misses, t));
        WANT(is_same_cache(&one, &other, t));
    }

    /* what is refused changes nothing */
    struct cache_view view, none = {1, 1, 1};
    struct cache_found found;
    const uint8_t *key = (const uint8_t *)"k:0";
    cache_counts before = cache_get_counts(other.at);
    cache_get_view(other.at, &view);
    cache_get_view(NULL, &none);
    WANT(none.slots == 0 && none.rows == 0 && none.len == 0);
    cache_get_view(other.at, NULL);
    cache_find_shared(NULL, other.words, view.len, key, 3, cache_hash(key, 3), 1, &found);
    WANT(found.kind == CACHE_BAD && found.row == 0);
    cache_find_shared(&view, NULL, 0, key, 3, cache_hash(key, 3), 1, &found);
    WANT(found.kind == CACHE_BAD && found.row == 0);
    cache_find_shared(&view, other.words, view.len, NULL, 3, 0, 1, &found);
    WANT(found.kind == CACHE_BAD && found.row == 0);
    cache_find_shared(&none, other.words, 0, key, 3, cache_hash(key, 3), 1, &found);
    WANT(found.kind == CACHE_BAD && found.row == 0);
    cache_find_shared(&view, other.words, (size_t)view.len + 1, key, 3, 0, 1, &found);
    WANT(found.kind == CACHE_BAD && found.row == 0);
    cache_find_shared(&view, other.words, view.len, key, SIZE_MAX, 0, 1, &found);
    WANT(found.kind == CACHE_TOO_LONG && found.row == 0);
    cache_find_shared(&view, other.words, view.len, key, 3, cache_hash(key, 3), 1, NULL);
    WANT(!cache_count(NULL, NULL, 0, 1, 1));
    WANT(!cache_count(other.at, NULL, 1, 0, 1));
    WANT(!cache_count(other.at, &view.len, SIZE_MAX, 0, 1));
    cache_counts after = cache_get_counts(other.at);
    WANT(memcmp(&before, &after, sizeof before) == 0);
    WANT(cache_count(other.at, NULL, 0, UINT64_MAX, 1));
    WANT(cache_count(other.at, NULL, 0, 2, 1));
    WANT(cache_get_counts(other.at).misses == UINT64_MAX);
    WANT(cache_get_counts(other.at).hits == before.hits);
    printf("%u passed, %u failed\n", passed, failed);
    return failed != 0;
}
