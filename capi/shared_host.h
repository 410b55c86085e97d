/* SPDX-License-Identifier: MIT */
/* shared_cache.c for a host: a program that has calls of its own over the shared memory, as the
 * extension for PHP has.
 *
 * A host that only needs what is declared here links shared_cache.c. One that adds something to
 * each call includes it in one of its own files, after the hooks and a definition of SHARED_HOST:
 *
 *     static inline void shared_before(void) { .. }
 *     .. the other hooks ..
 *     #define SHARED_HOST
 *     #include "shared_cache.c"
 *
 * That file may also use the functions of a shared read (shared_cache.c). The hooks are inline, so
 * one that does nothing takes no time:
 *
 *     void shared_before(void);
 *         before the lock or a lane is taken. From then on until shared_after no signal handler may
 *         run that takes a lock, forks or does not return.
 *     void shared_after(bool had_lock);
 *         after it was released; had_lock is false after a lane, and if nothing was taken.
 *     bool shared_is_recorded(void);
 *         whether this process notes its events. Then it takes no lane and no seat, since a read in
 *         a lane is no event.
 *     bool shared_are_all_recorded(void);
 *         with the lock: whether each process does so until the lock is released. Then no lane is
 *         waited for.
 *     void shared_note(const cache_request *, const uint8_t *key, size_t key_len,
 *                      const uint8_t *bytes, size_t len, const cache_answer *);
 *         with the lock, after an event, if shared_is_recorded: no other process knows its answer.
 *     void shared_note_reset(void);
 *         with the lock: the counts of the cache begin from 0, because it was made or cleared, or all
 *         rows were dropped for a new one.
 *     void shared_note_death(bool is_remade);
 *         with the lock: its last owner died. If that was in a call, is_remade is true: an empty
 *         cache replaced the last one, or there is none if shared_at->is_made is false.
 *
 * Those that are called with the lock obey its rules (robust_lock.h), and the process may be killed
 * at any instruction of them: shared_note_death then is called again by the next owner. */
#ifndef SHARED_HOST_H
#define SHARED_HOST_H

#include "lanes.h"
#include "seats.h"
#include "shared_cache.h"

/* What begins the shared memory, in cache lines by who writes them: each call that changes the cache
 * writes the first, and few calls write the second, which each call reads. The host's own part
 * follows, and then the cache. All of it is at one address in every process. */
typedef struct {
    robust_lock lock;      /* one call that may change or list the cache at a time */
    volatile bool is_busy; /* a call that may change it is in progress */

    _Alignas(64) volatile bool is_made; /* there is a cache */
    cache_shape shape;
    struct cache_view view; /* of the cache as it is, for those that read in a lane */
    uint8_t *cache;         /* the handle; null: none was made yet */
    uint64_t *words;        /* the words to which the places of the cache's strings refer */

    _Alignas(64) shared_deaths deaths;
    uint64_t expunges; /* how many of the cache shared_ask has seen */
    size_t begin;      /* bytes before those of the cache */
    size_t size, used; /* bytes of the mapping, and of those that were allocated */
    seats seats;       /* the processes that copy outside of the lock */
    lanes lanes;       /* reads without the lock, and the uses that they noted */
} shared_memory;

/* Null if this process has none. */
extern shared_memory *shared_at;

/* The host's part: zeros at first. It stays as it is when the cache is recreated. */
static inline void *shared_own(void) { return shared_at + 1; }

/* Whether a cache may have this shape. */
bool shared_is_good(const cache_shape *shape);

/* As shared_start, with `own` bytes for the host, and with the memory in core dumps or without it.
 * `bytes`, which may be null, is how many were requested of the system. */
uint32_t shared_start_for(const cache_shape *shape, size_t own, bool is_dumped, size_t *bytes);

/* Takes the lock. False if there is no cache; then there is nothing to unlock. */
bool shared_lock(void);
void shared_unlock(void);

/* With the lock: one event. The request has the hash of its key. */
cache_answer shared_ask(const cache_request *request, const uint8_t *key, size_t key_len,
                        const uint8_t *bytes, size_t len);

/* With the lock, one event: a fetch. A string of SHARED_HELD bytes or more that it finds may be held
 * by the seat; there is none if the seat is CACHE_SEATS. */
cache_answer shared_look(const uint8_t *key, size_t key_len, uint64_t hash, uint64_t t,
                         unsigned *seat);

/* With the lock, after shared_look: holds its string until shared_let_go. The text has no bytes if
 * that is not possible. */
void shared_hold_found(const cache_answer *answer, unsigned seat, shared_text *text);

#endif
