/* SPDX-License-Identifier: MIT */
/* Reads that run at the same time, and a lock (robust_lock.h) for those that change what is read.
 * For the C here and the extension for PHP; a file that includes it defines _GNU_SOURCE first.
 *
 * A reader takes a lane: a word in a cache line that readers on other processors don't write. It
 * reads if the lock is free then, and otherwise releases the lane and waits. A writer takes the lock,
 * and waits until no lane is taken. Each of them writes its own word before it reads the other's,
 * and all four steps are sequentially consistent, so at least one of two that come at the same time
 * sees the other.
 *
 * A read may count: it notes the row that it used in its lane, and writes nothing else. The next
 * writer counts all uses before it does anything else. They have one second in common, so they may
 * be counted in any order: a reader of another second takes the lock.
 *
 * A lane's word is that of a short lock: the kernel marks it when its owner dies, and a lane whose
 * owner died is free. Nothing is half done there: a use is noted by one write. A writer that dies
 * while it counts leaves all rows as they are; of the lane that it counted some uses may be
 * missing. A thread with a lane obeys the rules of a short lock: it takes no robust mutex and no
 * other short lock, does not fork, and no signal handler does so. If the lock is a mutex, no lane
 * is taken and each reader takes the lock. */
#ifndef LANES_H
#define LANES_H

#include "cache_c.h"
#include "robust_lock.h"

#include <sched.h>
#include <string.h>
#include <sys/mman.h>
#include <unistd.h>

/* The uses of a lane that is full are counted before it is read there again. */
enum { LANES_MOST = 64, LANE_USES = 124 };

typedef struct {
    _Alignas(64) _Atomic uint32_t word; /* as that of a robust_lock */
    uint32_t uses;                      /* how many rows were noted */
    uint64_t misses;
    uint32_t rows[LANE_USES];
} lane;

/* In memory of zeros nothing was noted. */
typedef struct {
    uint32_t count;              /* a power of two; 1 if the lock is a mutex */
    uint64_t t;                  /* the second of all uses that wait */
    lane lane[LANES_MOST];
    _Atomic uint32_t is_counted; /* 1 + the lane whose uses are counted; 0: none */
} lanes;

/* In memory of zeros, before the first reader: twice as many lanes as processors, so that a reader
 * finds one if another on its processor was interrupted in the first. */
static inline void lanes_make(lanes *all, const robust_lock *lock) {
    long processors = sysconf(_SC_NPROCESSORS_CONF);
    all->count = 1;
    while (!lock->is_mutex && all->count < LANES_MOST && all->count < 2 * processors)
        all->count *= 2;
}

static inline void lane_forget(lane *one) {
    one->uses = 0;
    one->misses = 0;
}

/* With the lock, and no reader inside: nothing that waits is counted. */
static inline void lanes_forget(lanes *all) {
    for (uint32_t i = 0; i < all->count; i++)
        lane_forget(&all->lane[i]);
    all->is_counted = 0;
}

/* Whether a use of this second may be noted in a lane that the caller has. */
static inline bool lane_may_note(const lanes *all, const lane *mine, uint64_t t) {
    return all->t == t && mine->uses < LANE_USES;
}

/* In a lane that the caller has: a hit of a row, or a miss for 0. */
static inline void lane_note(lane *mine, uint32_t row) {
    if (row == 0) {
        mine->misses++;
        return;
    }
    mine->rows[mine->uses] = row;
    atomic_signal_fence(memory_order_seq_cst);
    mine->uses++;
}

/* With the lock, and no reader inside: the second of the uses from now on is t, if none waits for
 * another one. It goes back if the clock did. Readers of an earlier second take the lock. */
static inline bool lanes_set_second(lanes *all, uint64_t t) {
    if (all->t < t || all->t > (uint64_t)time(NULL))
        all->t = t;
    return all->t == t;
}

/* A process that is killed has done its writes up to an instruction, so the compiler alone must
 * keep their order. */
static inline void lanes_set_counted(lanes *all, uint32_t which) {
    atomic_signal_fence(memory_order_seq_cst);
    atomic_store_explicit(&all->is_counted, which, memory_order_relaxed);
    atomic_signal_fence(memory_order_seq_cst);
}

/* With the lock, and no reader inside: whether uses wait to be counted. */
static inline bool lanes_has_uses(const lanes *all) {
    uint64_t uses = 0;
    for (const lane *one = all->lane, *end = one + all->count; one < end; one++)
        uses |= one->uses | one->misses;
    return uses != 0;
}

/* With the lock, and no reader inside: counts what was noted, in any order of lanes. */
static __attribute__((noinline, unused)) void lanes_count(lanes *all, uint8_t *cache) {
    for (uint32_t i = 0; i < all->count; i++) {
        lane *one = &all->lane[i];
        if (one->uses == 0 && one->misses == 0)
            continue;
        lanes_set_counted(all, i + 1);
        cache_count(cache, one->rows, one->uses, one->misses, all->t);
        lane_forget(one);
        lanes_set_counted(all, 0);
    }
}

/* The same of one hit or miss, of another second than the lanes have. */
static __attribute__((noinline, unused)) void lanes_count_now(lanes *all, uint8_t *cache,
                                                              uint32_t row, uint64_t t) {
    lanes_set_counted(all, LANES_MOST + 1);
    cache_count(cache, &row, row != 0, row == 0, t);
    lanes_set_counted(all, 0);
}

/* With the lock, and no reader inside, if its last owner died and the cache is whole: what was
 * counted in part is not counted again. */
static inline void lanes_settle(lanes *all) {
    uint32_t which = all->is_counted;
    if (which > 0 && which <= all->count)
        lane_forget(&all->lane[which - 1]);
    lanes_set_counted(all, 0);
}

/* With the lock, and no reader inside, before a cache is made in memory that had one: words that it
 * has not written are zeros to a reader. Pages of a shared mapping are released. */
ROBUST_SELDOM static void lanes_clear_words(void *words, size_t size) {
    uintptr_t page = (uintptr_t)sysconf(_SC_PAGESIZE), first = (uintptr_t)words, end = first + size;
    uintptr_t from = (first + page - 1) / page * page, to = end / page * page;
    if (from >= to || madvise((void *)from, to - from, MADV_REMOVE) != 0)
        to = from = end;
    memset(words, 0, from - first);
    memset((void *)to, 0, end - to);
}

#if defined(__linux__) && defined(__GLIBC__) && !defined(ROBUST_LOCK_MUTEX)

/* Takes a lane if it is free. */
static inline bool lane_take(lane *one) {
    struct robust_list_head *head = robust_self.head;
    uint32_t seen = 0;
    head->list_op_pending = (struct robust_list *)((char *)&one->word - head->futex_offset);
    robust_in_order();
    if (__builtin_expect(atomic_compare_exchange_strong_explicit(&one->word, &seen, robust_self.id,
                                                                 memory_order_seq_cst,
                                                                 memory_order_relaxed),
                         true))
        return true;
    /* its owner died, or a writer waited for it */
    return robust_is_free(seen) && atomic_compare_exchange_strong_explicit(
                                       &one->word, &seen, robust_self.id | (seen & FUTEX_WAITERS),
                                       memory_order_seq_cst, memory_order_relaxed);
}

ROBUST_SELDOM static void lane_wake(lane *one) {
    syscall(SYS_futex, &one->word, FUTEX_WAKE, 1, NULL, NULL, 0);
}

/* Nothing is read after it. */
static inline void lane_release(lane *mine) {
    uint32_t was = atomic_exchange_explicit(&mine->word, 0, memory_order_release);
    if (__builtin_expect((was & FUTEX_WAITERS) != 0, false))
        lane_wake(mine);
    robust_in_order();
    robust_self.head->list_op_pending = NULL;
}

static inline bool lanes_is_free(robust_lock *lock) {
    return atomic_load_explicit(&lock->word, memory_order_seq_cst) == 0;
}

/* How often a reader looks whether the lock is free before it takes the lock itself. */
#ifndef LANES_LOOKS
#define LANES_LOOKS 20
#endif

/* A writer is soon done; it may need this processor. */
static inline void lanes_pause(robust_lock *lock) {
    for (unsigned i = 0; i < 200 && atomic_load_explicit(&lock->word, memory_order_relaxed) != 0;
         i++)
        atomic_signal_fence(memory_order_seq_cst);
    if (atomic_load_explicit(&lock->word, memory_order_relaxed) != 0)
        sched_yield();
}

ROBUST_SELDOM static lane *lanes_enter_late(lanes *all, robust_lock *lock) {
    if (lock->is_mutex || (robust_self.id == 0 && !robust_learn_self()))
        return NULL;
    for (unsigned look = 0; look < LANES_LOOKS; look++) {
        uint32_t first = 2 * (uint32_t)sched_getcpu();
        for (uint32_t i = 0; lanes_is_free(lock) && i < all->count; i++) {
            lane *one = &all->lane[(first + i) % all->count];
            if (!lane_take(one))
                continue;
            if (lanes_is_free(lock))
                return one;
            lane_release(one);
        }
        lanes_pause(lock);
    }
    robust_self.head->list_op_pending = NULL;
    return NULL;
}

/* Begins a read: the lane in which it is done, until lane_release. Null if the caller has to take
 * the lock, and then read. */
static inline lane *lanes_enter(lanes *all, robust_lock *lock) {
    lane *one = &all->lane[2 * (uint32_t)sched_getcpu() & (all->count - 1)];
    if (__builtin_expect(!lock->is_mutex && robust_self.id != 0 && lanes_is_free(lock), true) &&
        __builtin_expect(lane_take(one), true)) {
        if (__builtin_expect(lanes_is_free(lock), true))
            return one;
        lane_release(one);
    }
    return lanes_enter_late(all, lock);
}

/* Until a lane is not taken. A running reader is soon done. If it was interrupted, this thread
 * sleeps: the release or the owner's death wakes it. */
ROBUST_SELDOM static void lane_wait(lane *one) {
    static const struct timespec second = {.tv_sec = 1};
    for (unsigned look = 0, gap = 1; look < ROBUST_LOCK_LOOKS; look++) {
        for (unsigned i = 0; i < gap; i++)
            sched_yield();
        gap = gap < 16 ? 2 * gap : 16;
        if (robust_is_free(atomic_load_explicit(&one->word, memory_order_seq_cst)))
            return;
    }
    for (;;) {
        uint32_t seen = atomic_load_explicit(&one->word, memory_order_seq_cst);
        if (robust_is_free(seen))
            return;
        if (seen & FUTEX_WAITERS ||
            atomic_compare_exchange_strong_explicit(&one->word, &seen, seen | FUTEX_WAITERS,
                                                    memory_order_relaxed, memory_order_relaxed))
            syscall(SYS_futex, &one->word, FUTEX_WAIT, seen | FUTEX_WAITERS, &second, NULL, 0);
    }
}

ROBUST_SELDOM static void lanes_wait_late(lanes *all) {
    for (uint32_t i = 0; i < all->count; i++) {
        lane *one = &all->lane[i];
        if (!robust_is_free(atomic_load_explicit(&one->word, memory_order_seq_cst)))
            lane_wait(one);
    }
}

/* With the lock: waits until no reader is inside; none comes before the lock is released. */
static inline void lanes_wait(lanes *all) {
    uint32_t words = 0;
    for (lane *one = all->lane, *end = one + all->count; one < end; one++)
        words |= atomic_load_explicit(&one->word, memory_order_seq_cst);
    if (__builtin_expect(!robust_is_free(words), false))
        lanes_wait_late(all);
}
#else
static inline void lane_release(lane *mine) { (void)mine; }
static inline lane *lanes_enter(lanes *all, robust_lock *lock) {
    return (void)all, (void)lock, NULL;
}
static inline void lanes_wait(lanes *all) { (void)all; }
#endif

#endif
