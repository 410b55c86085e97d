/* SPDX-License-Identifier: MIT */
/* Seats: the processes that copy outside of the lock, and from which rows. For the C here and the
 * extension for PHP.
 *
 * A process takes a seat of the cache under the lock (CACHE_HOLD), releases the lock, copies, and
 * leaves the seat, with no lock. The cache pins the row for longer: until the seat is taken again, or
 * a process, under the lock, is about to change rows and unpins it.
 *
 * A process may be killed while it copies. Each seat has a mark (robust_lock.h): the kernel clears the
 * owner of a mark when it dies, so from then on the seat counts as left. A cache may also be emptied
 * while a process copies from it. So each seat has a ticket, which changes when the seat is taken and
 * when its row is unpinned, and a copy counts only if the ticket is still the same when it is done. */
#ifndef SEATS_H
#define SEATS_H

#include "cache_c.h"
#include "robust_lock.h"

#include <stdatomic.h>
#include <string.h>

typedef struct {
    robust_mark owner;       /* the thread that copies */
    _Atomic uint64_t ticket; /* of the copy; another one after it */
} seat_of_one;

/* Written under the lock, except for the marks. */
typedef struct {
    const robust_lock *lock;
    uint64_t taken;  /* seats that are used, or by which the cache may pin rows, seat 0 lowest */
    unsigned taking; /* 1 + the seat whose mark the owner of the lock takes; 0: none */
    seat_of_one seat[CACHE_SEATS];
} seats;

/* Makes them, for owners of this lock; false if the system has no mutexes for it. */
static inline bool seats_make(seats *all, const robust_lock *lock) {
    all->lock = lock;
    all->taken = 0;
    all->taking = 0;
    for (unsigned number = 0; number < CACHE_SEATS; number++) {
        atomic_init(&all->seat[number].ticket, 0);
        if (!robust_mark_make(&all->seat[number].owner, lock))
            return false;
    }
    return true;
}

/* Under the lock: whether a process that is alive copies by it. */
static inline bool seats_is_used(seats *all, unsigned number) {
    return robust_mark_is_owned(&all->seat[number].owner, all->lock);
}

/* Under the lock: a seat that is not used; CACHE_SEATS if there is none. */
static inline unsigned seats_free(seats *all) {
    unsigned number = 0;
    while (number < CACHE_SEATS && seats_is_used(all, number))
        number++;
    return number;
}

/* Under the lock: how many are used. */
static inline unsigned seats_count(seats *all) {
    unsigned count = 0;
    for (uint64_t left = all->taken; left != 0; left &= left - 1)
        count += seats_is_used(all, (unsigned)__builtin_ctzll(left));
    return count;
}

/* Under the lock: whether this memory has the word of a place as the cache has it, the first byte
 * lowest. */
static inline bool seats_may_read(uint8_t *cache, const uint64_t *words, uint32_t place) {
    uint8_t word[8];
    return words && cache_copy(cache, place, word, sizeof word) &&
           memcmp(word, words + place, sizeof word) == 0;
}

/* Under the lock, after CACHE_HOLD pinned a row by it: the seat is not used, and its row is unpinned
 * by the next seats_sweep. */
static inline void seats_note(seats *all, unsigned number) {
    all->taken |= (uint64_t)1 << number;
}

/* Under the lock, after seats_note: takes the seat for this thread. The ticket of the copy. */
static inline uint64_t seats_take(seats *all, unsigned number) {
    seat_of_one *mine = &all->seat[number];
    all->taking = number + 1;
    atomic_signal_fence(memory_order_seq_cst);
    robust_mark_take(&mine->owner, all->lock);
    atomic_signal_fence(memory_order_seq_cst);
    all->taking = 0;
    return atomic_fetch_add_explicit(&mine->ticket, 1, memory_order_relaxed) + 1;
}

/* Without the lock, when the copy is done: whether it counts. */
static inline bool seats_leave(seats *all, unsigned number, uint64_t ticket) {
    seat_of_one *mine = &all->seat[number];
    /* Pairs with the fence of seats_end_copy: of a copy that read a later row's bytes, the ticket is
     * another one. */
    atomic_thread_fence(memory_order_acquire);
    bool counts = atomic_load_explicit(&mine->ticket, memory_order_relaxed) == ticket;
    return robust_mark_release(&mine->owner, all->lock) && counts;
}

/* Under the lock: a copy by this seat, if there is one, no longer counts. */
static inline void seats_end_copy(seats *all, unsigned number) {
    atomic_fetch_add_explicit(&all->seat[number].ticket, 1, memory_order_relaxed);
    atomic_thread_fence(memory_order_seq_cst);
}

/* Under the lock, before rows change, and as a call that changes the cache: unpins the rows of seats
 * that are not used, those of processes that died among them. */
static __attribute__((noinline, unused)) void seats_sweep(seats *all, uint8_t *cache) {
    for (uint64_t left = all->taken; left != 0; left &= left - 1) {
        unsigned number = (unsigned)__builtin_ctzll(left);
        if (seats_is_used(all, number))
            continue;
        seats_end_copy(all, number);
        cache_let_go(cache, number);
        all->taken &= ~((uint64_t)1 << number);
    }
}

/* Under the lock, if its last owner died outside of a call: it may have taken a seat of the cache that
 * is not noted, or the mark of one that the kernel does not know. */
static inline void seats_settle(seats *all) {
    all->taken = UINT64_MAX;
    if (all->taking != 0)
        robust_mark_reset(&all->seat[all->taking - 1].owner, all->lock);
    all->taking = 0;
}

/* Under the lock, before the cache is emptied: no copy from it counts. */
static inline void seats_clear(seats *all) {
    all->taken = 0;
    for (unsigned number = 0; number < CACHE_SEATS; number++) {
        seats_end_copy(all, number);
        if (seats_is_used(all, number))
            seats_note(all, number);
    }
}

#endif
