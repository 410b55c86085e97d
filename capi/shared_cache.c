/* SPDX-License-Identifier: MIT */
/* See shared_cache.h, and shared_host.h for hosts. */
#ifndef _GNU_SOURCE
#define _GNU_SOURCE
#endif
#include "shared_host.h"

#include <errno.h>
#include <stdatomic.h>
#include <stdlib.h>
#include <string.h>
#include <sys/mman.h>
#include <unistd.h>

#ifndef SHARED_HOST
static inline void shared_before(void) {}
static inline void shared_after(bool had_lock) { (void)had_lock; }
static inline bool shared_is_recorded(void) { return false; }
static inline bool shared_are_all_recorded(void) { return false; }
static inline void shared_note(const cache_request *request, const uint8_t *key, size_t key_len,
                               const uint8_t *bytes, size_t len, const cache_answer *answer) {
    (void)request, (void)key, (void)key_len, (void)bytes, (void)len, (void)answer;
}
static inline void shared_note_reset(void) {}
static inline void shared_note_death(bool is_remade) { (void)is_remade; }
#endif

#define SHARED_INLINE static inline __attribute__((always_inline, unused))
#define SHARED_APART static __attribute__((noinline, unused))
#define SHARED_LIKELY(condition) __builtin_expect(!!(condition), 1)
#define SHARED_RARELY(condition) __builtin_expect(!!(condition), 0)

const char *cache_c_version(void) { return CACHE_C_VERSION; }

shared_memory *shared_at;

/* The source of the library's memory: while a cache is made, the mapping; while a shape is checked,
 * nothing; otherwise malloc, since what another call allocates it frees before it returns. Written
 * only with the lock, or before there is a second process. */
static enum { FROM_MALLOC, FROM_MAPPING, FROM_NOWHERE } source;

/* Of a cache line of the processor; a multiple of every alignment. */
enum { LINE_BYTES = 64 };

static size_t whole_lines(size_t n) { return (n + LINE_BYTES - 1) / LINE_BYTES * LINE_BYTES; }

static cache_tried given(void *at) {
    static char nothing;
    return (cache_tried){at != NULL, at ? at : &nothing};
}

static bool is_mapped(const void *at) {
    return shared_at && (uintptr_t)at >= (uintptr_t)shared_at &&
           (uintptr_t)at - (uintptr_t)shared_at < shared_at->size;
}

/* Bytes of the mapping, of which byte number `first` is at the start of a cache line. */
static void *take_bytes(size_t n, size_t first) {
    size_t from = whole_lines(shared_at->used + first) - first;
    if (from > shared_at->size || n > shared_at->size - from)
        return NULL;
    shared_at->used = from + n;
    return (char *)shared_at + from;
}

cache_tried rattle_alloc(size_t n, size_t align) {
    if (source == FROM_NOWHERE)
        return given(NULL);
    if (source == FROM_MALLOC)
        return given(malloc(n ? n : 1));
    /* The words come first, and nothing else of a cache is as large. Rows follow the slots, which end
     * at a cache line: a row of 128 bytes, such as a counter's, is then in two lines, not in three. */
    bool is_words = !shared_at->words && n == 8 * (size_t)shared_at->shape.words;
    size_t slots = is_words ? 8 * (size_t)shared_at->shape.slots : 0;
    void *at = align <= LINE_BYTES ? take_bytes(n, slots) : NULL;
    if (is_words) {
        shared_at->words = at;
        if (at && shared_at->cache)
            lanes_clear_words(at, n);
    }
    return given(at);
}

cache_tried rattle_realloc(void *at, size_t kept, size_t n, size_t align) {
    if (!is_mapped(at))
        return given(realloc(at, n ? n : 1));
    cache_tried more = rattle_alloc(n, align);
    if (more.ok)
        memcpy(more.at, at, kept < n ? kept : n);
    return more;
}

/* The mapping is used from the start for each cache, so nothing of it is freed. */
void rattle_dealloc(void *at) {
    if (!is_mapped(at))
        free(at);
}

int rattle_errno(void) { return errno; }

bool shared_is_good(const cache_shape *shape) {
    uint8_t *at = malloc(cache_size());
    source = FROM_NOWHERE;
    bool is_good = at && cache_new(shape, at) == CACHE_NO_ROOM;
    source = FROM_MALLOC;
    free(at);
    return is_good;
}

/* Makes an empty cache. Nothing of an older one is read, and each process uses the same places
 * for it: a process that is killed in here leaves nothing that the next one needs. */
static uint32_t make(void) {
    shared_at->is_made = false;
    seats_clear(&shared_at->seats);
    lanes_forget(&shared_at->lanes);
    shared_at->words = NULL;
    shared_at->used = shared_at->begin;
    shared_at->expunges = 0;

    source = FROM_MAPPING;
    uint8_t *cache = take_bytes(cache_size(), 0);
    uint32_t made = cache ? cache_new(&shared_at->shape, cache) : CACHE_NO_ROOM;
    source = FROM_MALLOC;

    shared_at->cache = cache;
    shared_note_reset();
    if (made == CACHE_MADE)
        cache_get_view(cache, &shared_at->view);
    shared_at->is_made = made == CACHE_MADE;
    return made;
}

uint32_t shared_start_for(const cache_shape *shape, size_t own, bool is_dumped, size_t *bytes) {
    if (!shape)
        return CACHE_NO_POINTER;
    size_t page = (size_t)sysconf(_SC_PAGESIZE);
    /* Besides its words a cache has an index of some four bytes for each four of them. What is too
     * much is unmapped below. */
    size_t size = 8 * (size_t)shape->words;
    size += size / 6 + whole_lines(own) + 64 * 1024;
    size = (size + page - 1) / page * page;
    if (bytes)
        *bytes = size;

    void *at = mmap(NULL, size, PROT_READ | PROT_WRITE, MAP_SHARED | MAP_ANONYMOUS, -1, 0);
    if (at == MAP_FAILED)
        return CACHE_NO_ROOM;
#ifdef MADV_HUGEPAGE
    madvise(at, size, MADV_HUGEPAGE);
#endif
#ifdef MADV_DONTDUMP
    /* A process that dumps core owns its lock until the dump is written. */
    if (!is_dumped)
        madvise(at, size, MADV_DONTDUMP);
#endif
    shared_at = at;
    shared_at->begin = sizeof *shared_at + whole_lines(own);
    shared_at->size = size;
    shared_at->shape = *shape;
    uint32_t made = CACHE_NO_ROOM;
    if (robust_lock_make(&shared_at->lock, true) &&
        seats_make(&shared_at->seats, &shared_at->lock)) {
        lanes_make(&shared_at->lanes, &shared_at->lock);
        made = make();
    }
    if (made != CACHE_MADE) {
        shared_end();
        return made;
    }
    size_t used = (shared_at->used + page - 1) / page * page;
    munmap((char *)at + used, size - used);
    shared_at->size = used;
    return made;
}

uint32_t shared_start(const cache_shape *shape) { return shared_start_for(shape, 0, false, NULL); }

void shared_end(void) {
    if (shared_at)
        munmap(shared_at, shared_at->size);
    shared_at = NULL;
}

/* A process that is killed has done all its writes up to an instruction and none after it. So only
 * the compiler must keep the order of this flag and what the call writes. */
SHARED_INLINE void set_busy(bool is_busy) {
    atomic_signal_fence(memory_order_seq_cst);
    shared_at->is_busy = is_busy;
    atomic_signal_fence(memory_order_seq_cst);
}

/* After a call that may have changed the cache. Other processes read the view, so it is written only
 * if it changed. */
SHARED_INLINE void renew_view(void) {
    struct cache_view view, *old = &shared_at->view;
    cache_get_view(shared_at->cache, &view);
    if (view.rows != old->rows || view.len != old->len || view.slots != old->slots)
        *old = view;
}

/* The lock's last owner died. If a call was in progress, what it left may be half a change, and is
 * not read again: a new cache replaces it. A process that dies here leaves is_busy as it is, and
 * the next owner begins again. */
ROBUST_SELDOM static void recover(void) {
    if (shared_at->is_busy) {
        make();
        shared_at->deaths.inside++;
        shared_note_death(true);
        set_busy(false);
    } else {
        seats_settle(&shared_at->seats);
        lanes_settle(&shared_at->lanes);
        if (shared_at->is_made)
            cache_get_view(shared_at->cache, &shared_at->view);
        shared_at->deaths.outside++;
        shared_note_death(false);
    }
}

bool shared_lock(void) {
    if (SHARED_RARELY(!shared_at))
        return false;
    shared_before();
    int taken = robust_lock_take(&shared_at->lock);
    if (SHARED_RARELY(taken != 0 && taken != EOWNERDEAD)) {
        shared_after(false);
        return false;
    }
    /* While all events are recorded, no process reads in a lane. */
    bool may_have_uses = !shared_are_all_recorded();
    if (SHARED_LIKELY(may_have_uses))
        lanes_wait(&shared_at->lanes);
    if (SHARED_RARELY(taken != 0))
        recover();
    if (SHARED_RARELY(!shared_at->is_made)) {
        shared_unlock();
        return false;
    }
    if (SHARED_LIKELY(may_have_uses) && lanes_has_uses(&shared_at->lanes)) {
        lanes_count(&shared_at->lanes, shared_at->cache);
        renew_view();
    }
    return true;
}

void shared_unlock(void) {
    robust_lock_give(&shared_at->lock);
    shared_after(true);
}

SHARED_INLINE bool may_drop_rows(uint32_t kind) {
    return kind != CACHE_LOOK && kind != CACHE_HOLD && kind != CACHE_EXISTS;
}

/* An expunge sets the counts of hits, misses and inserts to 0, as a clear does. */
static void note_expunges(uint32_t kind) {
    uint64_t expunges = cache_get_counts(shared_at->cache).expunges;
    if (SHARED_RARELY(kind == CACHE_CLEAR || expunges != shared_at->expunges)) {
        shared_at->expunges = expunges;
        shared_note_reset();
    }
}

/* The pointers are not null, and no length is 2^63 or more. */
SHARED_INLINE cache_answer ask_event(const cache_request *request, const uint8_t *key,
                                     size_t key_len, const uint8_t *bytes, size_t len,
                                     bool is_noted) {
    /* A process that is killed in a call that changes nothing leaves the cache valid. */
    set_busy(request->kind != CACHE_EXISTS);
    if (SHARED_RARELY(shared_at->seats.taken != 0) && may_drop_rows(request->kind))
        seats_sweep(&shared_at->seats, shared_at->cache);
    cache_answer answer =
        cache_ask_unchecked(shared_at->cache, request, key, key_len, bytes, len);
    if (is_noted)
        shared_note(request, key, key_len, bytes, len, &answer);
    if (SHARED_LIKELY(request->kind != CACHE_EXISTS))
        renew_view();
    /* After an expunge there is one row at most. */
    if (SHARED_RARELY(shared_at->view.rows <= 1) && may_drop_rows(request->kind))
        note_expunges(request->kind);
    set_busy(false);
    return answer;
}

/* An event that is noted. In a function of its own, so that another one keeps nothing for it. */
SHARED_APART cache_answer ask_and_note(const cache_request *request, const uint8_t *key,
                                       size_t key_len, const uint8_t *bytes, size_t len) {
    return ask_event(request, key, key_len, bytes, len, true);
}

ROBUST_SELDOM static cache_answer ask_null(const cache_request *request, const uint8_t *key,
                                           size_t key_len, const uint8_t *bytes, size_t len) {
    static const uint8_t none = 0;
    if ((!key && key_len > 0) || (!bytes && len > 0))
        return (cache_answer){.kind = CACHE_BAD};
    if ((key_len | len) > SIZE_MAX / 2)
        return (cache_answer){.kind = CACHE_TOO_LONG};
    return shared_ask(request, key ? key : &none, key_len, bytes ? bytes : &none, len);
}

cache_answer shared_ask(const cache_request *request, const uint8_t *key, size_t key_len,
                        const uint8_t *bytes, size_t len) {
    if (SHARED_RARELY(!key || !bytes || (key_len | len) > SIZE_MAX / 2))
        return ask_null(request, key, key_len, bytes, len);
    if (SHARED_RARELY(shared_is_recorded()))
        return ask_and_note(request, key, key_len, bytes, len);
    return ask_event(request, key, key_len, bytes, len, false);
}

cache_answer shared_look(const uint8_t *key, size_t key_len, uint64_t hash, uint64_t t,
                         unsigned *seat) {
    unsigned number = shared_is_recorded() ? CACHE_SEATS : seats_free(&shared_at->seats);
    cache_request request = {.kind = number < CACHE_SEATS ? CACHE_HOLD : CACHE_LOOK,
                             .t = t,
                             .number = number,
                             .set = SHARED_HELD,
                             .hash = hash};
    cache_answer answer = shared_ask(&request, key, key_len, (const uint8_t *)"", 0);
    bool is_pinned =
        request.kind == CACHE_HOLD && answer.kind == CACHE_STR && answer.len >= SHARED_HELD;
    if (is_pinned)
        seats_note(&shared_at->seats, number);
    *seat = is_pinned ? number : CACHE_SEATS;
    return answer;
}

void shared_hold_found(const cache_answer *answer, unsigned seat, shared_text *text) {
    *text = (shared_text){.bytes = NULL};
    if (seat >= CACHE_SEATS ||
        !seats_may_read(shared_at->cache, shared_at->words, answer->place))
        return;
    text->bytes = (const uint8_t *)(shared_at->words + answer->place);
    text->len = answer->len;
    text->seat = seat;
    text->ticket = seats_take(&shared_at->seats, seat);
}

bool shared_let_go(const shared_text *text) {
    return seats_leave(&shared_at->seats, text->seat, text->ticket);
}

shared_deaths shared_get_deaths(void) { return shared_at->deaths; }

/* A shared read: look-ups in a lane, or with the lock as if in lane 0. From shared_read_begin until
 * shared_read_end the rules of the lock hold. */
typedef struct {
    lane *lane;
    bool has_lock;
} shared_reading;

SHARED_APART bool read_begin_late(shared_reading *one) {
    shared_after(false);
    one->lane = &shared_at->lanes.lane[0];
    one->has_lock = true;
    return shared_lock();
}

/* Begins a read at the second t; may_note if look-ups of it are counted. False if there is no cache,
 * or the process records its events. */
SHARED_INLINE bool shared_read_begin(shared_reading *one, uint64_t t, bool may_note) {
    if (SHARED_RARELY(!shared_at || shared_is_recorded()))
        return false;
    shared_before();
    one->lane = lanes_enter(&shared_at->lanes, &shared_at->lock);
    one->has_lock = false;
    if (SHARED_LIKELY(one->lane)) {
        if (SHARED_LIKELY(shared_at->is_made &&
                          (!may_note || lane_may_note(&shared_at->lanes, one->lane, t))))
            return true;
        lane_release(one->lane);
    }
    return read_begin_late(one);
}

/* Looks a key up; nothing is counted. The key is not null. */
SHARED_INLINE void shared_read_find(const uint8_t *key, size_t key_len, uint64_t hash, uint64_t t,
                                    struct cache_found *found) {
    *found = cache_find_shared_unchecked(&shared_at->view, shared_at->words, shared_at->view.len,
                                         key, key_len, hash, t);
}

/* Whether one more look-up of a read that has counted some can be counted. */
SHARED_INLINE bool shared_read_may_note(const shared_reading *one, uint64_t t) {
    return one->has_lock || lane_may_note(&shared_at->lanes, one->lane, t);
}

SHARED_APART void read_note_with_lock(const shared_reading *one, uint32_t row, uint64_t t) {
    if (lanes_set_second(&shared_at->lanes, t) && one->lane->uses < LANE_USES) {
        lane_note(one->lane, row);
        return;
    }
    /* An earlier second than others have. */
    lanes_count_now(&shared_at->lanes, shared_at->cache, row, t);
    renew_view();
}

/* Counts a hit of a row, or a miss for 0. */
SHARED_INLINE void shared_read_note(const shared_reading *one, uint32_t row, uint64_t t) {
    if (SHARED_LIKELY(!one->has_lock))
        lane_note(one->lane, row);
    else
        read_note_with_lock(one, row, t);
}

SHARED_INLINE void shared_read_end(const shared_reading *one) {
    if (SHARED_RARELY(one->has_lock)) {
        shared_unlock();
        return;
    }
    lane_release(one->lane);
    shared_after(false);
}

/* The calls without a host. A host's hooks would not learn of each event of these. */
#ifndef SHARED_HOST

uint8_t *shared_enter(void) {
    if (!shared_lock())
        abort(); /* the lock was overwritten, or no empty cache could be made */
    set_busy(true);
    if (shared_at->seats.taken != 0)
        seats_sweep(&shared_at->seats, shared_at->cache);
    return shared_at->cache;
}

void shared_leave(void) {
    renew_view();
    set_busy(false);
    shared_unlock();
}

static void begin_reading(shared_reading *one, uint64_t t, bool may_note) {
    if (!shared_read_begin(one, t, may_note))
        abort();
}

static void find_checked(const uint8_t *key, size_t len, uint64_t t, struct cache_found *found) {
    static const uint8_t none = 0;
    if (!key && len > 0)
        *found = (struct cache_found){.kind = CACHE_BAD};
    else if (len > SIZE_MAX / 2)
        *found = (struct cache_found){.kind = CACHE_TOO_LONG};
    else
        shared_read_find(key ? key : &none, len, cache_hash(key, len), t, found);
}

cache_answer shared_fetch(const uint8_t *key, size_t key_len, uint64_t t, uint8_t *out,
                          size_t most) {
    struct cache_found found;
    shared_reading one;
    begin_reading(&one, t, true);
    find_checked(key, key_len, t, &found);
    bool is_text = found.kind == CACHE_STR;
    if (is_text && found.len <= most)
        memcpy(out, shared_at->words + found.place, found.len);
    if (is_text ? found.len <= most : found.kind != CACHE_BAD && found.kind != CACHE_TOO_LONG)
        shared_read_note(&one, found.row, t);
    shared_read_end(&one);
    return (cache_answer){found.kind, found.place, found.number, found.len};
}

bool shared_exists(const uint8_t *key, size_t key_len, uint64_t t) {
    struct cache_found found;
    shared_reading one;
    begin_reading(&one, t, false);
    find_checked(key, key_len, t, &found);
    shared_read_end(&one);
    return found.row != 0;
}

cache_answer shared_hold(const uint8_t *key, size_t key_len, uint64_t t, shared_text *text) {
    unsigned seat;
    cache_answer answer = shared_look(key, key_len, cache_hash(key, key_len), t, &seat);
    shared_hold_found(&answer, seat, text);
    set_busy(true); /* until shared_leave */
    return answer;
}
#endif
