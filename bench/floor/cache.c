/* SPDX-License-Identifier: MIT */
/* What a program in C takes for the calls of such a cache: the same rows of a head of twelve words,
 * key and value in 32 MB of words, the same hash and chains, blocks taken from the first gap that
 * fits, gaps that join, and an index of the gaps. It has no lock, copies no value into a graph,
 * and makes no room: a store fails if no gap fits. It is a floor, not a cache.
 * Usage: cache ROWS. Prints lines "PICOSECONDS CALL": the least of all batches, a call. */
#define _POSIX_C_SOURCE 200809L
#include <inttypes.h>
#include <stdbool.h>
#include <stddef.h>
#include <stdint.h>
#include <stdio.h>
#include <stdlib.h>
#include <string.h>
#include <time.h>

static void *zeros(size_t count, size_t size) {
    void *at = calloc(count, size);
    if (!at) {
        fputs("no memory\n", stderr);
        exit(1);
    }
    return at;
}

/* The words. A block begins with its size, a gap with its size and one, and the place of the next
 * gap or 0. Sizes are even, and so are places. */
enum { WORDS = 4 << 20 };
static uint64_t *words;
static uint32_t first_gap;

/* The index of gaps: the size of the gap at each even place or 0, and above it rows of the largest
 * of 32 numbers; and a bit for each even place at which a gap begins, and above it rows of a bit for
 * each 64. */
enum { PLACES = WORDS / 2, SIZE_ROWS = 5, BIT_ROWS = 4 };
static uint32_t *sizes[SIZE_ROWS];
static uint64_t *bits[BIT_ROWS];

static void make_index(void) {
    for (size_t row = 0, n = PLACES; row < SIZE_ROWS; row++, n = n / 32 + 1)
        sizes[row] = zeros((n / 32 + 1) * 32, sizeof(uint32_t));
    for (size_t row = 0, n = PLACES / 64; row < BIT_ROWS; row++, n = n / 64 + 1)
        bits[row] = zeros(n + 1, sizeof(uint64_t));
}

static uint32_t largest_of_32(const uint32_t *numbers) {
    uint32_t most = 0;
    for (int i = 0; i < 32; i++)
        most = numbers[i] > most ? numbers[i] : most;
    return most;
}

static uint32_t first_of_32(const uint32_t *numbers, uint32_t least) {
    uint32_t i = 0;
    while (i < 31 && numbers[i] < least)
        i++;
    return i;
}

/* Sets the size of a gap, and the rows above as far as they change. */
static void set_size(uint32_t place, uint32_t size) {
    uint32_t i = place / 2, was = sizes[0][i];
    sizes[0][i] = size;
    for (int row = 1; row < SIZE_ROWS; row++) {
        uint32_t *below = &sizes[row - 1][i / 32 * 32], most;
        i /= 32;
        uint32_t top = sizes[row][i];
        if (size >= top)
            most = size;
        else if (was < top)
            return;
        else
            most = largest_of_32(below);
        if (most == top)
            return;
        sizes[row][i] = most;
        was = top;
        size = most;
    }
}

static void put_gap(uint32_t place, uint32_t size) {
    set_size(place, size);
    uint32_t i = place / 2;
    for (int row = 0; row < BIT_ROWS; row++, i /= 64)
        bits[row][i / 64] |= UINT64_C(1) << i % 64;
}

static void drop_gap(uint32_t place) {
    set_size(place, 0);
    uint32_t i = place / 2;
    for (int row = 0; row < BIT_ROWS; row++, i /= 64)
        if (bits[row][i / 64] &= ~(UINT64_C(1) << i % 64))
            return;
}

/* The first gap of this size or a larger one; 0 if there is none. */
static uint32_t first_fit(uint32_t size) {
    uint32_t i = 0;
    if (largest_of_32(sizes[SIZE_ROWS - 1]) < size)
        return 0;
    for (int row = SIZE_ROWS - 1; row >= 0; row--)
        i = i * 32 + first_of_32(&sizes[row][i * 32], size);
    return 2 * i;
}

/* The last gap before a place; 0 if there is none. */
static uint32_t gap_before(uint32_t place) {
    uint32_t i = place / 2;
    for (int row = 0; row < BIT_ROWS; row++, i /= 64) {
        uint64_t some = i % 64 ? bits[row][i / 64] << (64 - i % 64) : 0;
        if (!some)
            continue;
        i = i - 1 - (uint32_t)__builtin_clzll(some);
        while (row-- > 0)
            i = 64 * i + 63 - (uint32_t)__builtin_clzll(bits[row][i]);
        return 2 * i;
    }
    return 0;
}

static void link_gap(uint32_t before, uint32_t gap) {
    if (before)
        words[before + 1] = gap;
    else
        first_gap = gap;
}

/* A block of this size; 0 if no gap fits. The first gaps are tried before the index. */
static uint32_t take(uint32_t size) {
    uint32_t gap = first_gap, before = 0;
    for (int tries = 0; tries < 3 && gap && sizes[0][gap / 2] < size; tries++) {
        before = gap;
        gap = (uint32_t)words[gap + 1];
    }
    if (!gap || sizes[0][gap / 2] < size) {
        gap = first_fit(size);
        if (!gap)
            return 0;
        before = gap_before(gap);
    }
    uint32_t left = sizes[0][gap / 2] - size, rest = gap + size;
    uint64_t next = words[gap + 1];
    drop_gap(gap);
    if (left) {
        put_gap(rest, left);
        words[rest] = left + 1;
        words[rest + 1] = next;
        link_gap(before, rest);
    } else {
        link_gap(before, (uint32_t)next);
    }
    words[gap] = size;
    return gap;
}

/* Gives a block back: it joins the gaps at both of its ends. */
static void give(uint32_t block) {
    uint32_t end = block + (uint32_t)words[block], before = gap_before(block), begin = block;
    uint64_t next = before ? words[before + 1] : first_gap;
    uint32_t behind = end < WORDS ? sizes[0][end / 2] : 0;
    if (behind) {
        next = words[end + 1];
        drop_gap(end);
        end += behind;
    }
    if (before && before + sizes[0][before / 2] == block)
        begin = before;
    else
        link_gap(before, block);
    put_gap(begin, end - begin);
    words[begin] = end - begin + 1;
    words[begin + 1] = next;
}

/* A row: what its words are. Its key follows them, and then its value: a mark and a number, or a
 * mark with a length and the bytes. */
enum { SIZE, NEXT, KEY_LEN, IMAGE_LEN, TTL, CTIME, MTIME, ATIME, DTIME, HITS, NUMBER, PINS, KEY };
enum { INTEGER_MARK = 2, TEXT_MARK = 3 };

struct key {
    size_t len;
    char bytes[16];
};

static uint32_t slots;
static uint64_t hits, misses, inserts, now = 1000;

static uint64_t hash(const struct key *key) {
    uint64_t h = 5381;
    for (size_t i = 0; i < key->len; i++)
        h = h * 33 + (unsigned char)key->bytes[i];
    return h | UINT64_C(1) << 63;
}

static bool has_key(uint32_t row, const struct key *key) {
    return words[row + KEY_LEN] == key->len && memcmp(&words[row + KEY], key->bytes, key->len) == 0;
}

/* The row of a key or 0, and the word that links to it. */
static uint32_t find(const struct key *key, uint32_t *link) {
    uint32_t row;
    *link = (uint32_t)(slots == 4096 ? hash(key) % 4096 : hash(key) % slots);
    while ((row = (uint32_t)words[*link]) && !has_key(row, key))
        *link = row + NEXT;
    return row;
}

static bool is_live(uint32_t row) {
    return words[row + TTL] == 0 || words[row + CTIME] + words[row + TTL] >= now;
}

static uint32_t find_live(const struct key *key) {
    uint32_t link, row = find(key, &link);
    return row && is_live(row) ? row : 0;
}

static uint32_t value_place(uint32_t row, const struct key *key) {
    return row + KEY + (uint32_t)(key->len + 7) / 8;
}

/* What a call is given besides its key. */
struct value {
    const char *text; /* null: an integer */
    size_t len;
};

typedef bool call(const struct key *key, const struct value *value);

static bool exists(const struct key *key, const struct value *value) {
    (void)value;
    return find_live(key) != 0;
}

static bool exists_not(const struct key *key, const struct value *value) {
    return !exists(key, value);
}

static bool fetch(const struct key *key, const struct value *value) {
    uint32_t row = find_live(key);
    if (!row) {
        misses++;
        return false;
    }
    hits++;
    words[row + HITS]++;
    words[row + ATIME] = now;
    uint32_t at = value_place(row, key);
    uint64_t mark = words[at];
    if (!value->text)
        return mark == INTEGER_MARK;
    char *text = malloc(mark / 8);
    if (!text)
        return false;
    memcpy(text, &words[at + 1], mark / 8);
    __asm__ volatile("" ::"r"(text) : "memory"); /* the text is used */
    free(text);
    return mark % 8 == TEXT_MARK;
}

static bool inc(const struct key *key, const struct value *value) {
    (void)value;
    uint32_t row = find_live(key);
    if (!row)
        return false;
    words[value_place(row, key) + 1]++;
    words[row + MTIME] = now;
    return true;
}

static bool store(const struct key *key, const struct value *value) {
    size_t image = 1 + (value->text ? (value->len + 7) / 8 : 1);
    uint32_t size = (uint32_t)(value_place(0, key) + image), row = take(size + size % 2), link;
    if (!row)
        return false;
    uint32_t old = find(key, &link), at = value_place(row, key);
    const uint64_t head[KEY] = {[SIZE] = words[row],  [NEXT] = old ? words[old + NEXT] : 0,
                                [KEY_LEN] = key->len, [IMAGE_LEN] = image,
                                [CTIME] = now,        [MTIME] = now,
                                [ATIME] = now,        [NUMBER] = ++inserts};
    memcpy(&words[row], head, sizeof head);
    words[at - 1] = 0;
    memcpy(&words[row + KEY], key->bytes, key->len);
    if (value->text) {
        words[at] = 8 * value->len + TEXT_MARK;
        words[at + image - 1] = 0;
        memcpy(&words[at + 1], value->text, value->len);
    } else {
        words[at] = INTEGER_MARK;
        words[at + 1] = 7;
    }
    words[link] = row;
    if (old)
        give(old);
    return true;
}

static bool add_there(const struct key *key, const struct value *value) {
    return find_live(key) || !store(key, value);
}

static bool delete (const struct key *key, const struct value *value) {
    (void)value;
    uint32_t link, row = find(key, &link);
    if (!row)
        return false;
    words[link] = words[row + NEXT];
    give(row);
    return true;
}

static bool nothing(const struct key *key, const struct value *value) {
    (void)value;
    return key->len != 0;
}

/* Of ten rows one holds each of these values, and seven an integer. */
enum { EIGHT, HUNDRED, INTEGER, KINDS, BATCH = 10000 };
static const char eight[8] = "xxxxxxxx";
static char hundred[100];
static const struct value values[KINDS] = {[EIGHT] = {eight, 8}, [HUNDRED] = {hundred, 100}};

static const struct measure {
    const char *name;
    int kind;
    call *call;
} measures[] = {
    {"nothing", EIGHT, nothing},
    {"exists, there", EIGHT, exists},
    {"fetch, integer", INTEGER, fetch},
    {"fetch, 8 bytes", EIGHT, fetch},
    {"fetch, 100 bytes", HUNDRED, fetch},
    {"inc", INTEGER, inc},
    {"add, there", EIGHT, add_there},
    {"store over 8 bytes", EIGHT, store},
    {"store over 100 bytes", HUNDRED, store},
    {"delete, 8 bytes", EIGHT, delete},
    {"exists, not there", EIGHT, exists_not},
    {"new row, 8 bytes", EIGHT, store},
    {"delete, 100 bytes", HUNDRED, delete},
    {"new row, 100 bytes", HUNDRED, store},
};
enum { MEASURES = sizeof measures / sizeof *measures };

static struct key *keys[KINDS];
static size_t count; /* of each kind */
static uint64_t least[MEASURES], wrong;

static uint64_t nanoseconds(void) {
    struct timespec t;
    clock_gettime(CLOCK_MONOTONIC, &t);
    return (uint64_t)t.tv_sec * 1000000000 + (uint64_t)t.tv_nsec;
}

static void shuffle(struct key *of) {
    static uint64_t drawn = 1;
    for (size_t i = count; i > 1; i--) {
        drawn = drawn * UINT64_C(6364136223846793005) + UINT64_C(1442695040888963407);
        size_t j = (size_t)(drawn >> 33) % i;
        struct key key = of[i - 1];
        of[i - 1] = of[j];
        of[j] = key;
    }
}

static void time_calls(const struct measure *of, uint64_t *ps) {
    for (size_t from = 0; from < count; from += BATCH) {
        size_t to = count - from < BATCH ? count : from + BATCH;
        uint64_t begin = nanoseconds();
        for (size_t i = from; i < to; i++)
            wrong += !of->call(&keys[of->kind][i], &values[of->kind]);
        uint64_t each = (nanoseconds() - begin) * 1000 / (to - from);
        *ps = each < *ps ? each : *ps;
    }
}

int main(int argc, char **argv) {
    size_t rows = argc > 1 ? (size_t)atol(argv[1]) : 1000;
    count = rows / 10;
    slots = rows > 4096 ? (uint32_t)(rows / 2 * 2) : 4096;
    memset(hundred, 'x', sizeof hundred);
    words = zeros(WORDS, sizeof *words);
    make_index();
    first_gap = slots;
    words[slots] = WORDS - slots + 1;
    put_gap(slots, WORDS - slots);
    for (int kind = 0; kind < KINDS; kind++)
        keys[kind] = zeros(count, sizeof(struct key));
    for (size_t i = 0; i < count * 10; i++) {
        struct key key;
        int kind = i % 10 < INTEGER ? (int)(i % 10) : INTEGER;
        key.len = (size_t)snprintf(key.bytes, sizeof key.bytes, "k%09zu", i % 1000000000);
        wrong += !store(&key, &values[kind]);
        if (i % 10 < KINDS)
            keys[kind][i / 10] = key;
    }
    memset(least, 0xFF, sizeof least);
    for (size_t round = 0; round < 3 + 400000 / rows; round++) {
        for (int kind = 0; kind < KINDS; kind++)
            shuffle(keys[kind]);
        for (size_t i = 0; i < MEASURES; i++)
            time_calls(&measures[i], &least[i]);
    }
    if (wrong) {
        fprintf(stderr, "%" PRIu64 " calls answered something else\n", wrong);
        return 1;
    }
    for (size_t i = 1; i < MEASURES; i++)
        printf("%" PRIu64 " %s\n", least[i] - least[0], measures[i].name);
    return 0;
}
