/* SPDX-License-Identifier: MIT */
/* One cache for a process and those that it forks: shared memory, the functions by which
 * the library allocates it, and a lock that outlives its owner. A program with calls of its own over
 * this memory includes shared_host.h. */
#ifndef SHARED_CACHE_H
#define SHARED_CACHE_H

#include "cache_c.h"

/* Maps memory and makes an empty cache of this shape there. Returns CACHE_MADE, or what cache_new
 * returns, or CACHE_NO_ROOM if the system has no memory or no lock. A process has one cache, and
 * makes it before it forks. */
uint32_t shared_start(const cache_shape *shape);

/* Unmaps the memory. No process may be in a call. */
void shared_end(void);

/* Waits for the lock, and returns the handle of the cache, which this process may use until
 * shared_leave. If the lock's last owner died inside a call, the cache is recreated, and is
 * empty. Not for signal handlers. */
uint8_t *shared_enter(void);
void shared_leave(void);

/* Fetches as CACHE_LOOK does, and copies a string's bytes if there are at most `most`; a longer one is no use of
 * its row, and the answer says how long it is. It needs no shared_enter. Calls of this function and the next one
 * run at the same time in any number of processes. */
cache_answer shared_fetch(const uint8_t *key, size_t key_len, uint64_t t, uint8_t *out, size_t most);

/* The same for CACHE_EXISTS: whether a live row has the key. */
bool shared_exists(const uint8_t *key, size_t key_len, uint64_t t);

/* A string of the cache that is read without the lock. */
typedef struct {
    const uint8_t *bytes; /* null: nothing is held, and the answer's bytes are for cache_copy */
    size_t len;
    uint64_t ticket;
    unsigned seat;
} shared_text;

/* Between shared_enter and shared_leave: fetches, and holds a string of SHARED_HELD bytes or more. Its
 * bytes may be read after shared_leave too, and do not change until shared_let_go, whatever
 * other processes store, delete or clear. */
enum { SHARED_HELD = 4096 };
cache_answer shared_hold(const uint8_t *key, size_t key_len, uint64_t t, shared_text *text);

/* Releases a string that is held, without the lock. False if it was no longer held: what was read of
 * it may belong to other rows, and is fetched again. This happens when a cache was recreated. */
bool shared_let_go(const shared_text *text);

/* How many owners of the lock died: inside a call, and outside of one. */
typedef struct {
    uint64_t inside, outside;
} shared_deaths;

/* Must be called between shared_enter and shared_leave. */
shared_deaths shared_get_deaths(void);

#endif
