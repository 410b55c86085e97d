/* SPDX-License-Identifier: MIT */
/* What the parts of a call cost on this machine: locks, atomic steps, a division, memory. Prints
 * lines "PICOSECONDS PART": the least of a hundred rounds of all parts. Then what a page costs that
 * is written for the first time, and the longest that one turn of an empty loop takes of 100,000,
 * as the least of seven rounds: so far the host itself stops a program. */
#define _GNU_SOURCE
#include <inttypes.h>
#include <pthread.h>
#include <stdatomic.h>
#include <stdint.h>
#include <stdio.h>
#include <stdlib.h>
#include <string.h>
#include <sys/mman.h>
#include <time.h>

enum { ROUNDS = 7, PART_ROUNDS = 100, TIMES = 50000, TURNS = 100000 };

static pthread_rwlock_t shared_lock;
static pthread_mutex_t mutex, robust;
static atomic_uint_fast64_t counter;
static volatile uint64_t divisor = 1000, sink;
static volatile size_t eight = 8;
static char from[64] = "text", to[64];

/* The compiler has to make what is pointed at. */
static void use(void *at) { __asm__ volatile("" ::"r"(at) : "memory"); }

static void nothing(void) { __asm__ volatile(""); }

static void read_pair(void) {
    pthread_rwlock_rdlock(&shared_lock);
    pthread_rwlock_unlock(&shared_lock);
}

static void write_pair(void) {
    pthread_rwlock_wrlock(&shared_lock);
    pthread_rwlock_unlock(&shared_lock);
}

static void mutex_pair(void) {
    pthread_mutex_lock(&mutex);
    pthread_mutex_unlock(&mutex);
}

static void robust_pair(void) {
    pthread_mutex_lock(&robust);
    pthread_mutex_unlock(&robust);
}

static void swap(void) { atomic_exchange(&counter, 1); }
static void add(void) { atomic_fetch_add(&counter, 1); }

static void compare_and_swap(void) {
    uint_fast64_t expected = 1;
    atomic_compare_exchange_strong(&counter, &expected, 1);
}

/* Hashes have their highest bit. */
static void divide(void) { sink = (sink | UINT64_C(1) << 63) % divisor; }
static void mask(void) { sink = (sink | UINT64_C(1) << 63) % 4096; }

static void copy_eight(void) {
    memcpy(to, from, eight);
    use(to);
}

static void take(size_t n) {
    void *at = malloc(n);
    use(at);
    free(at);
}

static void take_24(void) { take(24); }
static void take_300(void) { take(300); }
static void take_2000(void) { take(2000); }

static uint64_t nanoseconds(void) {
    struct timespec t;
    clock_gettime(CLOCK_MONOTONIC, &t);
    return (uint64_t)t.tv_sec * 1000000000 + (uint64_t)t.tv_nsec;
}

/* One round of a part: picoseconds a time. */
static uint64_t picoseconds(void (*part)(void)) {
    uint64_t begin = nanoseconds();
    for (int i = 0; i < TIMES; i++)
        part();
    return (nanoseconds() - begin) * 1000 / TIMES;
}

/* A page that is written for the first time. */
static uint64_t fresh_page(int advice) {
    enum { MEMORY = 64 << 20, PAGE = 4096 };
    uint64_t least = UINT64_MAX;
    for (int round = 0; round < ROUNDS; round++) {
        char *at = mmap(NULL, MEMORY, PROT_READ | PROT_WRITE, MAP_PRIVATE | MAP_ANONYMOUS, -1, 0);
        if (at == MAP_FAILED)
            return 0;
        madvise(at, MEMORY, advice);
        uint64_t begin = nanoseconds();
        for (size_t i = 0; i < MEMORY; i += PAGE)
            at[i] = 1;
        uint64_t each = (nanoseconds() - begin) * 1000 / (MEMORY / PAGE);
        least = each < least ? each : least;
        munmap(at, MEMORY);
    }
    return least;
}

static uint64_t longest_turn(void) {
    uint64_t least = UINT64_MAX;
    for (int round = 0; round < ROUNDS; round++) {
        uint64_t longest = 0, last = nanoseconds();
        for (int i = 0; i < TURNS; i++) {
            for (int j = 0; j < 1000; j++)
                nothing();
            uint64_t now = nanoseconds();
            longest = now - last > longest ? now - last : longest;
            last = now;
        }
        least = longest < least ? longest : least;
    }
    return least * 1000;
}

static void make_locks(void) {
    pthread_rwlockattr_t kind;
    pthread_rwlockattr_init(&kind);
    pthread_rwlockattr_setpshared(&kind, PTHREAD_PROCESS_SHARED);
    pthread_rwlock_init(&shared_lock, &kind);
    pthread_mutexattr_t of;
    pthread_mutexattr_init(&of);
    pthread_mutexattr_setpshared(&of, PTHREAD_PROCESS_SHARED);
    pthread_mutex_init(&mutex, &of);
    pthread_mutexattr_setrobust(&of, PTHREAD_MUTEX_ROBUST);
    pthread_mutex_init(&robust, &of);
}

static const struct {
    const char *name;
    void (*part)(void);
} parts[] = {
    {"nothing", nothing},
    {"a lock of readers and writers, taken and given back by a reader", read_pair},
    {"the same by a writer", write_pair},
    {"a mutex of all processes, taken and given back", mutex_pair},
    {"the same, robust", robust_pair},
    {"an atomic exchange", swap},
    {"an atomic addition", add},
    {"an atomic comparison with exchange", compare_and_swap},
    {"a division of a hash", divide},
    {"a mask of a hash", mask},
    {"a copy of 8 bytes whose number is not known before", copy_eight},
    {"24 bytes, taken and given back", take_24},
    {"300 bytes, taken and given back", take_300},
    {"2,000 bytes, taken and given back", take_2000},
};
enum { PARTS = sizeof parts / sizeof *parts };

int main(void) {
    uint64_t least[PARTS];
    make_locks();
    memset(least, 0xFF, sizeof least);
    for (int round = 0; round < PART_ROUNDS; round++)
        for (size_t i = 0; i < PARTS; i++) {
            uint64_t each = picoseconds(parts[i].part);
            least[i] = each < least[i] ? each : least[i];
        }
    for (size_t i = 1; i < PARTS; i++)
        printf("%" PRIu64 " %s\n", least[i] > least[0] ? least[i] - least[0] : 0, parts[i].name);
    printf("%" PRIu64 " a page of 4 KB, written for the first time\n", fresh_page(MADV_NOHUGEPAGE));
    printf("%" PRIu64 " the same, in pages of 2 MB\n", fresh_page(MADV_HUGEPAGE));
    printf("%" PRIu64 " the longest of 100,000 turns of an empty loop\n", longest_turn());
    return 0;
}
