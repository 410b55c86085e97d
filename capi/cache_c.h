/* SPDX-License-Identifier: MIT */
/* The proved cache as a library for C.
 *
 * One call at a time: the caller holds a lock around each call, and the lock orders the calls of
 * all processes. A handle is memory in which cache_new made a cache, and nothing else: no caller
 * reads, writes or moves it.
 *
 * A pointer is null, or points to as many bytes or places as the length next to it says. Input may
 * be in any memory. Output must not overlap other arguments or memory of the cache; it may be
 * uninitialised, since whatever it contains counts as its old bytes.
 *
 * No other input is undefined: each request, kind, place, slot and number has an answer, and so
 * have a null pointer and a length of 2^63 bytes or more. A null pointer with length 0 is taken as
 * no bytes.
 *
 * The exports of the library are cache_size and the functions whose names end in _unchecked. They
 * are proved for calls that come one at a time, with the handle that cache_new made, with aligned
 * pointers that are not null, with slices of less than 2^63 bytes, and with output that overlaps
 * nothing else. The functions that check pointers and lengths first are C of this header: they are
 * tested, and not proved. */
#ifndef CACHE_C_H
#define CACHE_C_H

#include <stdbool.h>
#include <stddef.h>
#include <stdint.h>

#ifdef __cplusplus
extern "C" {
#endif

/* The version of this header and of the engine with it, major.minor.patch; major changes if a
 * program must be changed. */
#define CACHE_C_VERSION "1.0.0"

/* CACHE_C_VERSION of the shared_cache.c that the program is linked with, which defines this. */
const char *cache_c_version(void);

/* The library allocates memory by four functions, which its user defines. */

/* Memory, or a failure. `at` is not null, even if there is no memory. */
typedef struct cache_tried {
    bool ok;
    void *at;
} cache_tried;

/* Memory of `size` bytes, aligned to `align`, which is at most 16. What is allocated while
 * cache_new runs lives as long as the cache, and each process has it at the same address, as the
 * handle. What another call allocates it frees before it returns. */
cache_tried rattle_alloc(size_t size, size_t align);

/* Memory of `size` bytes instead of that at `at`, whose first `kept` bytes are copied. If there
 * is none, that at `at` is unchanged. */
cache_tried rattle_realloc(void *at, size_t kept, size_t size, size_t align);

/* Frees the memory at `at`. */
void rattle_dealloc(void *at);

/* The number of the system's last error. The cache never calls it. */
int rattle_errno(void);

/* A shape: all words (8 bytes each) of the segments, the number of slots among them, after how many
 * seconds an unused row is stale (0: never), and the number of segments.
 *
 * Usable are 1 to 64 segments; 32 to 268,435,456 words, a multiple of twice the segments; an even
 * number of slots from 2 to 1,048,576, with 16 words or more left in the first segment
 * (slots + 16 <= words / segments); and any number of seconds. */
typedef struct {
    uint32_t words, slots, ttl, segments;
} cache_shape;

enum {
    CACHE_MADE,      /* an empty cache was made */
    CACHE_BAD_SHAPE, /* no cache has this shape: none was made */
    CACHE_NO_ROOM,   /* out of memory: none was made */
    CACHE_NO_POINTER /* a pointer is null: none was made */
};

/* The number of bytes of a handle, which is aligned to 16. */
size_t cache_size(void);

/* Makes an empty cache of this shape in the memory at `at`, which then is its handle. Any other
 * number than CACHE_MADE says why there is none.
 *
 * It calls rattle_alloc for 8 bytes a word, and for an index of about 1.1 bytes a word. */
static inline uint32_t cache_new(const cache_shape *shape, uint8_t *at);

/* Requests. Each is one event of the cache. */
enum cache_event {
    CACHE_STORE,  /* apcu_store: key, value, ttl */
    CACHE_ADD,    /* apcu_add: the same, but never over a live row */
    CACHE_LOOK,   /* apcu_fetch: key; counts a hit or a miss */
    CACHE_EXISTS, /* apcu_exists: key */
    CACHE_DELETE, /* apcu_delete: key */
    CACHE_COUNT,  /* apcu_inc: key, number is the step, ttl of a new row */
    CACHE_SWAP,   /* apcu_cas: key, number is expected, set is set */
    CACHE_CLEAR,  /* apcu_clear_cache */
    CACHE_HOLD    /* apcu_fetch: key; number is a seat, set the least length to take it for */
};

/* Kinds of values; an answer has them too. */
enum { CACHE_NULL, CACHE_BOOL, CACHE_INT, CACHE_STR };

typedef struct {
    uint32_t kind;   /* the request */
    uint32_t value;  /* the kind of the value that is stored */
    uint32_t ttl;    /* seconds; 0: no limit */
    uint64_t t;      /* the second of the call, below */
    uint64_t number; /* an integer's 64 bits, or a boolean; a seat */
    uint64_t set;    /* an integer's 64 bits; a number of bytes */
    uint64_t hash;   /* the key's, for cache_ask_hashed; cache_ask computes it */
} cache_request;

/* The hash of a key: 5381, for each byte times 33 plus the byte, and the highest bit set. PHP's
 * hash of a string (zend_string_hash_val) is the same if all its bytes are ASCII; of other bytes
 * PHP adds negative numbers if char has a sign. It is 0 if the pointer is null or the key has 4
 * GB or more. */
static inline uint64_t cache_hash(const uint8_t *key, size_t key_len);

/* The second `t` is of a clock that all callers share; the library has none. A row expires by the
 * seconds from its creation, or its last use, to `t`. The clock may go back: a row that was created
 * or used after `t` has not expired. */

/* The answers that are no values. A store is not done (CACHE_NO) if the value can never fit,
 * which changes nothing; if all rows that can be dropped were, and there is still no gap of that
 * size; and, for CACHE_ADD, if the key has a live row. */
enum {
    CACHE_OTHER = 4, /* a value of another kind */
    CACHE_ABSENT,    /* no live row has the key */
    CACHE_NO,        /* it was not done, or it is false */
    CACHE_YES,       /* it was done, or it is true */
    CACHE_NO_NUMBER, /* nothing was counted */
    CACHE_BAD,       /* no such request or value, or a null pointer: there was no event */
    CACHE_TOO_LONG   /* a key or a string of 4 GB or more: there was no event */
};

typedef struct {
    uint32_t kind;  /* a kind of value, or an answer above */
    uint32_t place; /* of the bytes of a string */
    int64_t number; /* an integer, or a boolean */
    uint64_t len;   /* the number of bytes of a string */
} cache_answer;

/* Carries out one event of the cache. The place of a string's bytes is valid until the next event.
 *
 * If CACHE_HOLD answers a string of `set` bytes or more, the seat `number` holds its row from then
 * on, and no longer what it held before. If it answers anything else, the seat is unchanged. The
 * bytes of a held row are not moved or written, whatever is stored, deleted or cleared: the words
 * from `place` on may be read without a lock, until the seat is released or taken again. The row's
 * block is not allocated again before that. So a store that needs its room may evict more rows, or
 * answer CACHE_NO; it never waits. */
static inline cache_answer cache_ask(uint8_t *at, const cache_request *ask, const uint8_t *key,
                                     size_t key_len, const uint8_t *bytes, size_t bytes_len);

/* The same; the caller has computed ask->hash. A wrong hash breaks the cache: the row of the key is
 * put where no other call finds it. */
static inline cache_answer cache_ask_hashed(uint8_t *at, const cache_request *ask,
                                            const uint8_t *key, size_t key_len,
                                            const uint8_t *bytes, size_t bytes_len);

/* The number of seats, from 0 on. */
enum { CACHE_SEATS = 64 };

/* Releases the seat: it holds nothing from now on. False if there is none of this number, or if the
 * pointer is null. It is no event. */
static inline bool cache_let_go(uint8_t *at, uint32_t seat);

/* Copies `len` bytes from the word at `place` on into `out`. Returns false, and copies nothing, if
 * they would run past the last word, or a pointer is null. */
static inline bool cache_copy(uint8_t *at, uint32_t place, uint8_t *out, size_t len);

/* The calls from here on change nothing, and are no events. */

typedef struct {
    uint64_t hits, misses;        /* fetches that found a row, or none, since the last expunge */
    uint64_t inserts;             /* rows that were stored, since then */
    uint64_t expunges;            /* expunges since the cache was cleared */
    uint64_t entries;             /* rows, expired ones included */
    uint64_t row_words, free_words; /* of the rows' blocks, and of the gaps */
} cache_counts;

/* An expunge drops all rows, because no gap was large enough for a new one, not even after the
 * expired rows were dropped. After it hits, misses and inserts count from 0. All counts are 0 if
 * the pointer is null. */
static inline cache_counts cache_get_counts(uint8_t *at);

/* A row. Moments are in seconds; sizes and places in words. */
typedef struct {
    uint32_t place;     /* of its block; 0: there is no row */
    uint32_t slot;      /* its list */
    uint32_t key_place; /* of the bytes of its key, for cache_copy; valid until the next event */
    uint32_t key_len;   /* the number of these bytes */
    uint32_t ttl;       /* seconds; 0: none of its own */
    uint32_t size;      /* of its block */
    uint64_t ctime;     /* created */
    uint64_t mtime;     /* last changed */
    uint64_t atime;     /* last used */
    uint64_t dtime;     /* dropped, for a removed row; otherwise 0 */
    uint64_t hits;      /* the number of its fetches */
    cache_answer value; /* as a look-up answers it */
} cache_row;

/* The row that a look-up of the key at the moment t finds; it counts nothing. There is none if a
 * pointer is null. */
static inline cache_row cache_find_row(uint8_t *at, const uint8_t *key, size_t key_len,
                                       uint64_t t);

/* The rows of a slot, expired ones included, in their order and after the first `skip`. Returns how
 * many were written, at most `room`, and 0 if a pointer is null. The slots are 0 to shape.slots -
 * 1; shape.slots are the removed rows, and a larger number has none. */
static inline uint64_t cache_list_rows(uint8_t *at, uint32_t slot, uint64_t skip, cache_row *out,
                                       size_t room);

/* How far a listing of several lists got. */
struct cache_listing {
    uint32_t next;  /* the first list that was not written; `to` if all were */
    uint64_t count; /* the number of rows that were written, those of the lists before it */
};

/* The rows of the lists from `from` up to `to`, list after list, each as cache_list_rows writes it,
 * until all rows of one do not fit. The places after the rows that were counted may have changed.
 * If a pointer is null, nothing is written: next is `from`, and count is 0. */
static inline void cache_list_slots(uint8_t *at, uint32_t from, uint32_t to, cache_row *out,
                                    size_t room, struct cache_listing *listing);

/* A gap between blocks, in words. */
typedef struct {
    uint32_t place, size;
} cache_gap;

/* The gaps at or after a place, by rising place. Returns how many were written, at most `room`, and
 * 0 if a pointer is null. */
static inline uint64_t cache_list_gaps(uint8_t *at, uint32_t from, cache_gap *out, size_t room);

/* Look-ups by any number of callers at once.
 *
 * cache_find_shared answers a fetch and writes nothing, so its callers need not exclude one
 * another, but they must exclude any call that may change the cache. What it answers is counted
 * later, by cache_count, before any other call: then the cache is the one that the fetches leave,
 * in any order. */

/* What a look-up needs to know besides the words. It is valid until the next call that may change
 * the cache. */
struct cache_view {
    uint32_t slots, rows, len; /* the numbers of slots, rows and words */
};

/* The answer of a shared look-up. */
struct cache_found {
    uint32_t kind;  /* these four are those of a cache_answer */
    uint32_t place;
    int64_t number;
    uint64_t len;
    uint32_t row;   /* the place of the row that was found, for cache_count; 0: there is none */
};

/* All are 0 if the handle is null. */
static inline void cache_get_view(uint8_t *at, struct cache_view *view);

/* What CACHE_LOOK would answer at the second t. `words` is the memory of 8 * shape.words bytes that
 * cache_new allocated, of which the first `written` words are passed; the others are taken as 0.
 * All view->len of them may be passed if that memory was 0 when cache_new got it. `hash` is the
 * key's.
 *
 * CACHE_BAD if a pointer is null, the view is of no cache, or more words are passed than there
 * are. */
static inline void cache_find_shared(const struct cache_view *view, const uint64_t *words,
                                     size_t written, const uint8_t *key, size_t key_len,
                                     uint64_t hash, uint64_t t, struct cache_found *found);

/* Counts shared look-ups of the second t: a hit and a use for each of these rows, which are still
 * in the cache, and `misses` misses. False, and nothing is counted, if a pointer is null. */
static inline bool cache_count(uint8_t *at, const uint32_t *rows, size_t count, uint64_t misses,
                               uint64_t t);

/* The exports: each is the call above whose name it begins with, but checks nothing first. */

uint32_t cache_new_unchecked(const cache_shape *shape, uint8_t *at);
uint64_t cache_hash_unchecked(const uint8_t *key, size_t key_len);
cache_answer cache_ask_unchecked(uint8_t *at, const cache_request *ask, const uint8_t *key,
                                 size_t key_len, const uint8_t *bytes, size_t bytes_len);
bool cache_let_go_unchecked(uint8_t *at, uint32_t seat);
bool cache_copy_unchecked(uint8_t *at, uint32_t place, uint8_t *out, size_t len);
cache_counts cache_get_counts_unchecked(uint8_t *at);
cache_row cache_find_row_unchecked(uint8_t *at, const uint8_t *key, size_t key_len, uint64_t t);
uint64_t cache_list_rows_unchecked(uint8_t *at, uint32_t slot, uint64_t skip, cache_row *out,
                                   size_t room);
struct cache_listing cache_list_slots_unchecked(uint8_t *at, uint32_t from, uint32_t to,
                                                cache_row *out, size_t room);
uint64_t cache_list_gaps_unchecked(uint8_t *at, uint32_t from, cache_gap *out, size_t room);

struct cache_view cache_get_view_unchecked(uint8_t *at);
struct cache_found cache_find_shared_unchecked(const struct cache_view *view,
                                               const uint64_t *words, size_t written,
                                               const uint8_t *key, size_t key_len, uint64_t hash,
                                               uint64_t t);
bool cache_count_unchecked(uint8_t *at, const uint32_t *rows, size_t count, uint64_t misses,
                           uint64_t t);

/* The functions that check their arguments first. */

static inline uint32_t cache_new(const cache_shape *shape, uint8_t *at) {
    if (!shape || !at)
        return CACHE_NO_POINTER;
    return cache_new_unchecked(shape, at);
}

static inline uint64_t cache_hash(const uint8_t *key, size_t key_len) {
    static const uint8_t none = 0;
    if ((!key && key_len > 0) || key_len > UINT32_MAX)
        return 0;
    return cache_hash_unchecked(key ? key : &none, key_len);
}

static inline cache_answer cache_ask(uint8_t *at, const cache_request *ask, const uint8_t *key,
                                     size_t key_len, const uint8_t *bytes, size_t bytes_len) {
    if (!ask)
        return cache_ask_hashed(at, ask, key, key_len, bytes, bytes_len);
    cache_request hashed = *ask;
    hashed.hash = cache_hash(key, key_len);
    return cache_ask_hashed(at, &hashed, key, key_len, bytes, bytes_len);
}

static inline cache_answer cache_ask_hashed(uint8_t *at, const cache_request *ask,
                                            const uint8_t *key, size_t key_len,
                                            const uint8_t *bytes, size_t bytes_len) {
    static const uint8_t none = 0;
    if (!at || !ask || (!key && key_len > 0) || (!bytes && bytes_len > 0)) {
        cache_answer bad = {CACHE_BAD, 0, 0, 0};
        return bad;
    }
    if (key_len > SIZE_MAX / 2 || bytes_len > SIZE_MAX / 2) {
        cache_answer too_long = {CACHE_TOO_LONG, 0, 0, 0};
        return too_long;
    }
    return cache_ask_unchecked(at, ask, key ? key : &none, key_len, bytes ? bytes : &none,
                               bytes_len);
}

static inline bool cache_let_go(uint8_t *at, uint32_t seat) {
    return at && cache_let_go_unchecked(at, seat);
}

static inline bool cache_copy(uint8_t *at, uint32_t place, uint8_t *out, size_t len) {
    uint8_t none = 0;
    if (!at || (!out && len > 0) || len > SIZE_MAX / 2)
        return false;
    return cache_copy_unchecked(at, place, out ? out : &none, len);
}

static inline cache_counts cache_get_counts(uint8_t *at) {
    if (!at) {
        cache_counts none = {0, 0, 0, 0, 0, 0, 0};
        return none;
    }
    return cache_get_counts_unchecked(at);
}

static inline cache_row cache_find_row(uint8_t *at, const uint8_t *key, size_t key_len,
                                       uint64_t t) {
    static const uint8_t none = 0;
    if (!at || (!key && key_len > 0) || key_len > SIZE_MAX / 2) {
        cache_row no_row = {0, 0, 0, 0, 0, 0, 0, 0, 0, 0, 0, {CACHE_ABSENT, 0, 0, 0}};
        return no_row;
    }
    return cache_find_row_unchecked(at, key ? key : &none, key_len, t);
}

static inline uint64_t cache_list_rows(uint8_t *at, uint32_t slot, uint64_t skip, cache_row *out,
                                       size_t room) {
    if (!at || !out || room > SIZE_MAX / 2 / sizeof *out)
        return 0;
    return cache_list_rows_unchecked(at, slot, skip, out, room);
}

static inline void cache_list_slots(uint8_t *at, uint32_t from, uint32_t to, cache_row *out,
                                    size_t room, struct cache_listing *listing) {
    if (!listing)
        return;
    listing->next = from;
    listing->count = 0;
    if (at && out && room <= SIZE_MAX / 2 / sizeof *out)
        *listing = cache_list_slots_unchecked(at, from, to, out, room);
}

static inline uint64_t cache_list_gaps(uint8_t *at, uint32_t from, cache_gap *out, size_t room) {
    if (!at || !out || room > SIZE_MAX / 2 / sizeof *out)
        return 0;
    return cache_list_gaps_unchecked(at, from, out, room);
}

static inline void cache_get_view(uint8_t *at, struct cache_view *view) {
    struct cache_view none = {0, 0, 0};
    if (view)
        *view = at ? cache_get_view_unchecked(at) : none;
}

static inline void cache_find_shared(const struct cache_view *view, const uint64_t *words,
                                     size_t written, const uint8_t *key, size_t key_len,
                                     uint64_t hash, uint64_t t, struct cache_found *found) {
    static const uint8_t none = 0;
    struct cache_found bad = {CACHE_BAD, 0, 0, 0, 0};
    struct cache_found too_long = {CACHE_TOO_LONG, 0, 0, 0, 0};
    if (!found)
        return;
    if (!view || !words || (!key && key_len > 0) || view->slots == 0 || written > view->len)
        *found = bad;
    else if (key_len > SIZE_MAX / 2)
        *found = too_long;
    else
        *found = cache_find_shared_unchecked(view, words, written, key ? key : &none, key_len,
                                             hash, t);
}

static inline bool cache_count(uint8_t *at, const uint32_t *rows, size_t count, uint64_t misses,
                               uint64_t t) {
    static const uint32_t none = 0;
    if (!at || (!rows && count > 0) || count > SIZE_MAX / 2 / sizeof *rows)
        return false;
    return cache_count_unchecked(at, rows ? rows : &none, count, misses, t);
}

#ifdef __cplusplus
}
#endif

#endif
