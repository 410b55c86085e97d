/* SPDX-License-Identifier: MIT */
/* A lock of all processes that share its memory, which outlives its owner: the next owner learns
 * that the last one died with it. And a mark, which shows whether the thread that set it is alive.
 * For the C here and the extension for PHP; a file that includes it defines _GNU_SOURCE first.
 *
 * Linux keeps for each thread the head of a list of locks that the thread has, which the C library
 * registers for its own robust mutexes (man 2 get_robust_list; robust-futexes and robust-futex-ABI in
 * the kernel's Documentation). Besides the list the head has one place, list_op_pending, for the one
 * lock that the thread is taking or releasing. When a thread ends, for any reason, the kernel
 * looks at the word of the lock there:
 * - if the word names the thread, it replaces the name by FUTEX_OWNER_DIED, and wakes one
 *   that waits if FUTEX_WAITERS was there, which stays;
 * - if it names no thread, it wakes one that waits;
 * - otherwise it does nothing.
 * A short lock is in that place from before it is taken until it is released, and in no list.
 * The C library uses the place only inside its calls on robust mutexes. So a thread with a short lock
 * takes no robust mutex and no other short lock, does not fork, and lets no signal's handler do so.
 *
 * A long lock is a robust mutex, and so is a short one if the system shows no such head.
 *
 * A mark is held for longer, while short locks are taken and released: it is an entry of the list
 * itself. An entry is at a fixed distance from its word, the same as in a mutex of the C library,
 * so a mark has the size of one. A thread releases its marks in the reverse order. In between it may
 * take robust mutexes of the C library only if it releases them, too.
 *
 * What this rests on, besides the kernel walking the list of a thread that ends:
 * - A thread's number is its own. Processes of different pid namespaces may have equal numbers: if
 *   they share a lock and one of them dies while it waits for it, takes or releases it, a third one
 *   may get the lock while the other owns it. The C library's mutexes have the same limit.
 * - A child is made by fork. In a child of _Fork, vfork or clone the number is that of its parent:
 *   it must not use a lock.
 * - No library replaces the thread's list by set_robust_list. A kernel older than 5.18 without the
 *   later fix may drop the list of a process that it kills because memory has run out: its lock is
 *   never released. */
#ifndef ROBUST_LOCK_H
#define ROBUST_LOCK_H

#include <errno.h>
#include <pthread.h>
#include <stdatomic.h>
#include <stdbool.h>
#include <stdint.h>
#include <time.h>

typedef struct {
    /* 0: free; the number of the thread that owns it; FUTEX_OWNER_DIED: its last owner died, and
     * no thread has taken it since. With FUTEX_WAITERS, one that waits is woken on release. */
    _Atomic uint32_t word;
    bool is_mutex;    /* the word is not used */
    uint64_t longest; /* nanoseconds of the longest sleep for it; read and written by the owner */
    pthread_mutex_t mutex;
} robust_lock;

/* As a word of a lock, without FUTEX_WAITERS: no thread waits for a mark. */
typedef union {
    _Atomic uint32_t word;
    pthread_mutex_t mutex;
} robust_mark;

/* Rarely called functions are out of line, so that they cost no time if they are not called. */
#define ROBUST_SELDOM __attribute__((noinline, cold, unused))

static inline uint64_t robust_nanoseconds(void) {
    struct timespec now;
    clock_gettime(CLOCK_MONOTONIC, &now);
    return (uint64_t)now.tv_sec * 1000000000u + (uint64_t)now.tv_nsec;
}

/* By the owner, after a sleep that began then. */
static inline void robust_note_sleep(robust_lock *lock, uint64_t since) {
    uint64_t slept = robust_nanoseconds() - since;
    if (slept > lock->longest)
        lock->longest = slept;
}

#if defined(__linux__) && defined(__GLIBC__) && !defined(ROBUST_LOCK_MUTEX)
#include <linux/futex.h>
#include <sched.h>
#include <sys/syscall.h>
#include <unistd.h>

/* The place in the kernel's list, and this thread's number. Each call reads them, so they are where
 * no function of the loader is called for them. */
static _Thread_local struct {
    struct robust_list_head *head;
    uint32_t id; /* 0: not known yet */
} robust_self __attribute__((tls_model("initial-exec"), unused));

/* A forked child has the head of the thread that forked, and a number of its own. */
ROBUST_SELDOM static void robust_forget_id(void) { robust_self.id = 0; }

ROBUST_SELDOM static bool robust_learn_self(void) {
    struct robust_list_head *head = NULL;
    size_t size = 0;
    if (syscall(SYS_get_robust_list, 0, &head, &size) != 0 || !head || size != sizeof *head)
        return false;
    /* A mark has room for its entry after its word. */
    if (head->futex_offset > -(long)sizeof(uint32_t) ||
        head->futex_offset < (long)sizeof(struct robust_list) - (long)sizeof(robust_mark))
        return false;
    robust_self.head = head;
    robust_self.id = (uint32_t)syscall(SYS_gettid);
    return true;
}

ROBUST_SELDOM static bool robust_has_words(void) {
    static bool is_prepared;
    is_prepared = is_prepared || pthread_atfork(NULL, NULL, robust_forget_id) == 0;
    return is_prepared && robust_learn_self();
}

/* The order of two writes of this thread, as the kernel sees them where it ends. */
static inline void robust_in_order(void) { atomic_signal_fence(memory_order_seq_cst); }

static inline bool robust_is_free(uint32_t word) { return (word & FUTEX_TID_MASK) == 0; }

/* Takes the lock if its word still is this free one: EBUSY if it is not. A thread that waited for it
 * adds FUTEX_WAITERS, since others may wait too. Lanes are read after it (lanes.h), so it is
 * sequentially consistent. */
static inline int robust_take_free(robust_lock *lock, uint32_t free, uint32_t id,
                                   uint32_t waiters) {
    uint32_t seen = free;
    if (!atomic_compare_exchange_strong_explicit(&lock->word, &seen,
                                                 id | (free & FUTEX_WAITERS) | waiters,
                                                 memory_order_seq_cst, memory_order_relaxed))
        return EBUSY;
    return free & FUTEX_OWNER_DIED ? EOWNERDEAD : 0;
}

/* Sleeps until the lock is released, and takes it. One that waits may be killed after it was woken and
 * before it took the lock. If another one took it meanwhile, the kernel wakes no thread for the
 * dead one, nor does the new owner, which knows of no waiter. So each looks again after a second. */
ROBUST_SELDOM static int robust_sleep(robust_lock *lock, uint32_t id) {
    static const struct timespec second = {.tv_sec = 1};
    uint64_t since = robust_nanoseconds();
    uint32_t waiters = 0;
    for (;;) {
        uint32_t seen = atomic_load_explicit(&lock->word, memory_order_relaxed);
        if (robust_is_free(seen)) {
            int taken = robust_take_free(lock, seen, id, waiters);
            if (taken != EBUSY) {
                robust_note_sleep(lock, since);
                return taken;
            }
        } else if (seen & FUTEX_WAITERS ||
                   atomic_compare_exchange_strong_explicit(&lock->word, &seen,
                                                           seen | FUTEX_WAITERS,
                                                           memory_order_relaxed,
                                                           memory_order_relaxed)) {
            syscall(SYS_futex, &lock->word, FUTEX_WAIT, seen | FUTEX_WAITERS, &second, NULL, 0);
            waiters = FUTEX_WAITERS;
        }
    }
}

/* A running owner is soon done: the lock is tested this many times, with growing gaps in which
 * others may run, before this thread sleeps. */
#ifndef ROBUST_LOCK_LOOKS
#define ROBUST_LOCK_LOOKS 10
#endif
ROBUST_SELDOM static int robust_wait(robust_lock *lock, uint32_t id) {
    for (unsigned look = 0, gap = 1; look < ROBUST_LOCK_LOOKS; look++) {
        for (unsigned i = 0; i < gap; i++)
            sched_yield();
        gap = gap < 16 ? 2 * gap : 16;
        uint32_t seen = atomic_load_explicit(&lock->word, memory_order_relaxed);
        int taken = robust_is_free(seen) ? robust_take_free(lock, seen, id, 0) : EBUSY;
        if (taken != EBUSY)
            return taken;
    }
    return robust_sleep(lock, id);
}

static inline int robust_take_word(robust_lock *lock) {
    if (__builtin_expect(robust_self.id == 0, false) && !robust_learn_self())
        return ENOTSUP;
    uint32_t id = robust_self.id;
    struct robust_list_head *head = robust_self.head;
    head->list_op_pending = (struct robust_list *)((char *)&lock->word - head->futex_offset);
    robust_in_order();
    int taken = robust_take_free(lock, 0, id, 0);
    return __builtin_expect(taken == 0, true) ? taken : robust_wait(lock, id);
}

ROBUST_SELDOM static void robust_wake_one(robust_lock *lock) {
    syscall(SYS_futex, &lock->word, FUTEX_WAKE, 1, NULL, NULL, 0);
}

static inline void robust_give_word(robust_lock *lock) {
    uint32_t was = atomic_exchange_explicit(&lock->word, 0, memory_order_release);
    if (__builtin_expect((was & FUTEX_WAITERS) != 0, false))
        robust_wake_one(lock);
    robust_in_order();
    robust_self.head->list_op_pending = NULL;
}

/* The entry of a mark in the list of the thread that owns it. */
static inline struct robust_list *robust_entry(robust_mark *mark) {
    return (struct robust_list *)((char *)&mark->word - robust_self.head->futex_offset);
}

static inline bool robust_is_marked(robust_mark *mark) {
    return !robust_is_free(atomic_load_explicit(&mark->word, memory_order_acquire));
}

static inline void robust_set_mark(robust_mark *mark) {
    struct robust_list *entry = robust_entry(mark), *head = &robust_self.head->list;
    atomic_store_explicit(&mark->word, robust_self.id, memory_order_relaxed);
    entry->next = head->next;
    robust_in_order();
    head->next = entry;
}

static inline bool robust_unset_mark(robust_mark *mark) {
    /* In a forked child its parent's mark is in no list. */
    if (robust_self.id == 0 ||
        atomic_load_explicit(&mark->word, memory_order_relaxed) != robust_self.id)
        return false;
    struct robust_list *entry = robust_entry(mark), *head = &robust_self.head->list, *at = head;
    robust_self.head->list_op_pending = entry;
    robust_in_order();
    while (at->next != entry && at->next != head)
        at = (struct robust_list *)((uintptr_t)at->next & ~(uintptr_t)1);
    if (at->next == entry)
        at->next = entry->next;
    robust_in_order();
    atomic_store_explicit(&mark->word, 0, memory_order_release);
    robust_in_order();
    robust_self.head->list_op_pending = NULL;
    return true;
}
#else
static inline bool robust_has_words(void) { return false; }
static inline int robust_take_word(robust_lock *lock) { return (void)lock, ENOTSUP; }
static inline void robust_give_word(robust_lock *lock) { (void)lock; }
static inline bool robust_is_marked(robust_mark *mark) { return (void)mark, true; }
static inline void robust_set_mark(robust_mark *mark) { (void)mark; }
static inline bool robust_unset_mark(robust_mark *mark) { return (void)mark, false; }
#endif

ROBUST_SELDOM static bool robust_make_mutex(pthread_mutex_t *mutex) {
    pthread_mutexattr_t kind;
    if (pthread_mutexattr_init(&kind) != 0)
        return false;
    bool made = pthread_mutexattr_setpshared(&kind, PTHREAD_PROCESS_SHARED) == 0 &&
                pthread_mutexattr_setrobust(&kind, PTHREAD_MUTEX_ROBUST) == 0 &&
                pthread_mutex_init(mutex, &kind) == 0;
    pthread_mutexattr_destroy(&kind);
    return made;
}

/* Waits for a mutex, until it is free or for the nanoseconds: then ETIMEDOUT. */
ROBUST_SELDOM static int robust_wait_mutex(pthread_mutex_t *mutex, uint64_t nanoseconds) {
    struct timespec until;
#ifdef __GLIBC__
    const clockid_t clock = CLOCK_MONOTONIC;
#else
    const clockid_t clock = CLOCK_REALTIME;
#endif
    clock_gettime(clock, &until);
    nanoseconds += (uint64_t)until.tv_nsec;
    until.tv_sec += (time_t)(nanoseconds / 1000000000u);
    until.tv_nsec = (long)(nanoseconds % 1000000000u);
#ifdef __GLIBC__
    return pthread_mutex_clocklock(mutex, clock, &until);
#else
    return pthread_mutex_timedlock(mutex, &until);
#endif
}

static inline int robust_mend_mutex(pthread_mutex_t *mutex, int taken) {
    if (taken == EOWNERDEAD)
        pthread_mutex_consistent(mutex);
    return taken;
}

/* Each looks again after a second, for the same reason. */
ROBUST_SELDOM static int robust_take_mutex(robust_lock *lock) {
    int taken = pthread_mutex_trylock(&lock->mutex);
    if (taken == EBUSY) {
        uint64_t since = robust_nanoseconds();
        while ((taken = robust_wait_mutex(&lock->mutex, 1000000000)) == ETIMEDOUT) {
        }
        if (taken == 0 || taken == EOWNERDEAD)
            robust_note_sleep(lock, since);
    }
    return robust_mend_mutex(&lock->mutex, taken);
}

/* Makes a lock, in memory that the processes share, before they fork; false if the system has
 * none. */
static inline bool robust_lock_make(robust_lock *lock, bool is_short) {
    atomic_init(&lock->word, 0);
    lock->longest = 0;
    lock->is_mutex = !is_short || !robust_has_words();
    return !lock->is_mutex || robust_make_mutex(&lock->mutex);
}

/* Waits for the lock, which this thread does not own: 0, or EOWNERDEAD if its last owner died, which
 * takes it too; any other number is that of an error. If a thread that got EOWNERDEAD dies, the
 * next one gets it again. */
static inline int robust_lock_take(robust_lock *lock) {
    return __builtin_expect(lock->is_mutex, false) ? robust_take_mutex(lock)
                                                   : robust_take_word(lock);
}

static inline void robust_lock_give(robust_lock *lock) {
    if (__builtin_expect(lock->is_mutex, false))
        pthread_mutex_unlock(&lock->mutex);
    else
        robust_give_word(lock);
}

/* A long lock: as robust_lock_take, but ETIMEDOUT if it is still owned after the nanoseconds. */
static inline int robust_lock_try(robust_lock *lock, uint64_t nanoseconds) {
    int taken = pthread_mutex_trylock(&lock->mutex);
    if (taken == EBUSY && nanoseconds > 0)
        taken = robust_wait_mutex(&lock->mutex, nanoseconds);
    return robust_mend_mutex(&lock->mutex, taken == EBUSY ? ETIMEDOUT : taken);
}

/* Makes a mark with no owner, as robust_lock_make; it is used by owners of this short lock. */
static inline bool robust_mark_make(robust_mark *mark, const robust_lock *by) {
    if (by->is_mutex)
        return robust_make_mutex(&mark->mutex);
    atomic_init(&mark->word, 0);
    return true;
}

/* By the owner of the lock: whether a thread that is alive owns the mark. */
static inline bool robust_mark_is_owned(robust_mark *mark, const robust_lock *by) {
    if (__builtin_expect(!by->is_mutex, true))
        return robust_is_marked(mark);
    int taken = robust_mend_mutex(&mark->mutex, pthread_mutex_trylock(&mark->mutex));
    if (taken == 0 || taken == EOWNERDEAD)
        pthread_mutex_unlock(&mark->mutex);
    return taken == EBUSY;
}

/* By the owner of the lock, of a mark that is not owned. A thread that dies in here may leave it owned
 * for good, so it is noted before, and robust_mark_reset is called for it. */
static inline void robust_mark_take(robust_mark *mark, const robust_lock *by) {
    if (__builtin_expect(!by->is_mutex, true))
        robust_set_mark(mark);
    else
        robust_mend_mutex(&mark->mutex, pthread_mutex_trylock(&mark->mutex));
}

/* By the owner of the lock, of a mark whose owner died in robust_mark_take. */
static inline void robust_mark_reset(robust_mark *mark, const robust_lock *by) {
    if (!by->is_mutex)
        atomic_store_explicit(&mark->word, 0, memory_order_relaxed);
}

/* Releases a mark, without the lock; false if this thread does not own it. */
static inline bool robust_mark_release(robust_mark *mark, const robust_lock *by) {
    if (__builtin_expect(!by->is_mutex, true))
        return robust_unset_mark(mark);
    return pthread_mutex_unlock(&mark->mutex) == 0;
}

#endif
