/* SPDX-License-Identifier: MIT */
/* Copies outside of the lock. A process holds a large text and reads it without the lock, while
 * others delete it, store over it, clear the cache and fill it: each byte is the old one. Then a
 * process is killed while it copies, and so are as many as there are seats, with no process waiting
 * for them: the next call that needs room gets that of their rows. And one copies while another
 * process dies inside a call, so that the cache is emptied: then the copy does not count. In the
 * end processes store, fetch and are killed at random moments.
 * Usage: copies [KILLS] */
#define _GNU_SOURCE
#include "shared_cache.h"

#include <signal.h>
#include <stdio.h>
#include <stdlib.h>
#include <string.h>
#include <sys/mman.h>
#include <sys/prctl.h>
#include <sys/wait.h>
#include <time.h>
#include <unistd.h>

enum { CHILDREN = 6, KEYS = 12, LEAST = SHARED_HELD, LONGEST = 200000 };

static unsigned failed;

#define WANT(condition)                                                                            \
    do {                                                                                           \
        if (!(condition)) {                                                                        \
            printf("copies.c:%d: not so: %s\n", __LINE__, #condition);                             \
            failed++;                                                                              \
        }                                                                                          \
    } while (0)

static const cache_shape shape = {.words = 1 << 17, .slots = 64, .segments = 1};

static uint64_t now(void) { return (uint64_t)time(NULL); }

/* All bytes of a text are the letter of its length. */
static char letter(size_t len) { return (char)('a' + len % 26); }

static bool is_whole(const uint8_t *text, size_t len) {
    for (size_t i = 0; i < len; i++)
        if (text[i] != (uint8_t)letter(len))
            return false;
    return true;
}

static char text[LONGEST];

/* Under the lock. */
static uint32_t ask(uint8_t *at, uint32_t kind, const char *key, size_t len) {
    cache_request request = {.kind = kind, .value = CACHE_STR, .t = now()};
    memset(text, letter(len), len);
    return cache_ask(at, &request, (const uint8_t *)key, strlen(key), (const uint8_t *)text, len).kind;
}

static uint32_t do_one(uint32_t kind, const char *key, size_t len) {
    uint32_t done = ask(shared_enter(), kind, key, len);
    shared_leave();
    return done;
}

static cache_answer hold(const char *key, shared_text *found) {
    shared_enter();
    cache_answer answer = shared_hold((const uint8_t *)key, strlen(key), now(), found);
    shared_leave();
    return answer;
}

static pid_t begin(void (*work)(void)) {
    pid_t parent = getpid(), child = fork();
    if (child != 0)
        return child;
    prctl(PR_SET_PDEATHSIG, SIGKILL);
    if (getppid() == parent)
        work();
    _exit(0);
}

static void do_as_another(void (*work)(void)) {
    pid_t child = begin(work);
    WANT(child > 0 && waitpid(child, NULL, 0) == child);
}

static size_t free_words(void) {
    cache_counts counts = cache_get_counts(shared_enter());
    shared_leave();
    return counts.free_words;
}

static uint64_t removed(void) {
    cache_row rows[8];
    uint64_t count = cache_list_rows(shared_enter(), shape.slots, 0, rows, 8);
    shared_leave();
    return count;
}

static void delete(void) { do_one(CACHE_DELETE, "held", 0); }
static void store_over(void) { do_one(CACHE_STORE, "held", 70001); }
static void clear(void) { do_one(CACHE_CLEAR, "", 0); }

static void fill(void) {
    for (unsigned i = 0; i < 400; i++) {
        char key[16];
        snprintf(key, sizeof key, "f%u", i % 40);
        do_one(CACHE_STORE, key, 20000 + i);
    }
}

/* Whatever others do, what is held stays; and after its release its room is free again. */
static void stays(void (*work)(void)) {
    size_t len = 70000;
    shared_text held;

    clear();
    size_t all = free_words();
    WANT(do_one(CACHE_STORE, "held", len) == CACHE_YES);
    WANT(hold("held", &held).len == len && held.bytes);
    do_as_another(work);
    do_as_another(fill);
    WANT(is_whole(held.bytes, len));
    WANT(removed() == 1);
    WANT(shared_let_go(&held));
    WANT(!shared_let_go(&held));
    WANT(do_one(CACHE_STORE, "next", 100) == CACHE_YES && removed() == 0);
    clear();
    WANT(free_words() == all);
}

static void hold_and_die(void) {
    shared_text held;
    hold("held", &held);
    raise(SIGKILL);
}

static void die_inside(void) {
    shared_enter();
    raise(SIGKILL);
}

static void of_the_dead(void) {
    clear();
    size_t all = free_words();
    WANT(do_one(CACHE_STORE, "held", 70000) == CACHE_YES);
    do_as_another(hold_and_die);
    delete ();
    WANT(removed() == 0);
    WANT(do_one(CACHE_STORE, "next", 100) == CACHE_YES && removed() == 0);
    clear();
    WANT(free_words() == all);
}

/* How many of them hold their text. */
static _Atomic unsigned *holders;

static void hold_one_and_wait(void) {
    shared_text held;
    char key[16];
    snprintf(key, sizeof key, "z%u", *holders);
    hold(key, &held);
    ++*holders;
    for (;;)
        pause();
}

/* As many as there are seats are killed and remain zombies: they still have their numbers. */
static void of_zombies(void) {
    pid_t child[CACHE_SEATS];
    holders = mmap(NULL, sizeof *holders, PROT_READ | PROT_WRITE, MAP_SHARED | MAP_ANONYMOUS, -1, 0);
    WANT(holders != MAP_FAILED);
    clear();
    size_t all = free_words();
    for (unsigned i = 0; i < CACHE_SEATS; i++) {
        char key[16];
        snprintf(key, sizeof key, "z%u", i);
        WANT(do_one(CACHE_STORE, key, 9000) == CACHE_YES);
        child[i] = begin(hold_one_and_wait);
        while (*holders == i)
            usleep(100);
    }
    shared_text none;
    WANT(hold("z0", &none).len == 9000 && !none.bytes);
    for (unsigned i = 0; i < CACHE_SEATS; i++) {
        kill(child[i], SIGKILL);
        WANT(waitid(P_PID, (id_t)child[i], &(siginfo_t){0}, WEXITED | WNOWAIT) == 0);
        WANT(kill(child[i], 0) == 0);
    }
    clear();
    WANT(free_words() == all && removed() == 0);
    for (unsigned i = 0; i < CACHE_SEATS; i++)
        waitpid(child[i], NULL, 0);
    munmap(holders, sizeof *holders);
}

/* A child that is forked during a copy leaves its parent's seat alone. */
static void of_a_fork(void) {
    shared_text held;
    WANT(do_one(CACHE_STORE, "held", 70000) == CACHE_YES);
    WANT(hold("held", &held).len == 70000 && held.bytes);
    pid_t child = fork();
    if (child == 0) {
        shared_let_go(&held);
        shared_enter();
        shared_leave();
        shared_let_go(&held);
        _exit(0);
    }
    waitpid(child, NULL, 0);
    delete ();
    fill();
    WANT(removed() == 1 && is_whole(held.bytes, held.len) && shared_let_go(&held));
    WANT(do_one(CACHE_STORE, "next", 100) == CACHE_YES && removed() == 0);
}

static void of_another_cache(void) {
    shared_text held;
    WANT(do_one(CACHE_STORE, "held", 70000) == CACHE_YES);
    WANT(hold("held", &held).len == 70000 && held.bytes);
    do_as_another(die_inside);
    WANT(do_one(CACHE_EXISTS, "held", 0) == CACHE_NO);
    WANT(!shared_let_go(&held));
}

/* If there is no room for all of it besides what is held, a store answers no, and no process waits. */
static void of_no_room(void) {
    shared_text held;
    size_t half = sizeof(uint64_t) * shape.words / 3 * 2;
    static char large[8 << 17];
    cache_request store = {.kind = CACHE_STORE, .value = CACHE_STR, .t = now()};

    clear();
    memset(large, letter(half), half);
    cache_ask(shared_enter(), &store, (const uint8_t *)"held", 4, (uint8_t *)large, half);
    shared_leave();
    WANT(hold("held", &held).len == half && held.bytes);
    uint8_t *at = shared_enter();
    WANT(cache_ask(at, &store, (const uint8_t *)"new", 3, (uint8_t *)large, half).kind == CACHE_NO);
    shared_leave();
    WANT(is_whole(held.bytes, half) && shared_let_go(&held));
    at = shared_enter();
    WANT(cache_ask(at, &store, (const uint8_t *)"new", 3, (uint8_t *)large, half).kind == CACHE_YES);
    shared_leave();
    clear();
}

/* More copies at once than there are seats: the last ones copy under the lock. */
static void of_many(void) {
    shared_text held[CACHE_SEATS + 1];
    WANT(do_one(CACHE_STORE, "held", 5000) == CACHE_YES);
    for (unsigned i = 0; i <= CACHE_SEATS; i++)
        WANT(hold("held", &held[i]).len == 5000 && (held[i].bytes != NULL) == (i < CACHE_SEATS));
    for (unsigned i = 0; i < CACHE_SEATS; i++)
        WANT(shared_let_go(&held[i]));
    WANT(hold("held", &held[0]).len == 5000 && held[0].bytes && shared_let_go(&held[0]));
}

/* What the children count, for all of them. */
static struct {
    _Atomic uint64_t whole, torn, lost;
} *counts;

static void store_and_copy(void) {
    unsigned seed = (unsigned)getpid();
    static uint8_t copy[LONGEST];
    for (;;) {
        char key[16];
        shared_text held;
        snprintf(key, sizeof key, "k%d", rand_r(&seed) % KEYS);
        switch (rand_r(&seed) % 8) {
            case 0:
                do_one(CACHE_DELETE, key, 0);
                break;
            case 1:
            case 2:
                do_one(CACHE_STORE, key, LEAST + (size_t)rand_r(&seed) % (LONGEST - LEAST));
                break;
            case 3:
                if (rand_r(&seed) % 20 == 0)
                    clear();
                break;
            default:
                if (hold(key, &held).kind != CACHE_STR || !held.bytes)
                    break;
                memcpy(copy, held.bytes, held.len);
                if (!shared_let_go(&held))
                    counts->lost++;
                else if (is_whole(copy, held.len))
                    counts->whole++;
                else
                    counts->torn++;
        }
    }
}

static void kill_children(unsigned kills) {
    pid_t child[CHILDREN];
    unsigned seed = 1;
    for (unsigned i = 0; i < CHILDREN; i++)
        child[i] = begin(store_and_copy);
    for (unsigned i = 0; i < kills; i++) {
        pid_t *one = &child[i % CHILDREN];
        usleep((useconds_t)(rand_r(&seed) % 20000));
        kill(*one, SIGKILL);
        waitpid(*one, NULL, 0);
        *one = begin(store_and_copy);
    }
    for (unsigned i = 0; i < CHILDREN; i++) {
        kill(child[i], SIGKILL);
        waitpid(child[i], NULL, 0);
    }
}

int main(int argc, char **argv) {
    unsigned kills = argc > 1 ? (unsigned)atoi(argv[1]) : 300;
    counts = mmap(NULL, sizeof *counts, PROT_READ | PROT_WRITE, MAP_SHARED | MAP_ANONYMOUS, -1, 0);
    if (counts == MAP_FAILED || shared_start(&shape) != CACHE_MADE)
        return 1;
    stays(delete);
    stays(store_over);
    stays(clear);
    of_the_dead();
    of_zombies();
    of_a_fork();
    of_no_room();
    of_many();
    of_another_cache();
    kill_children(kills);
    clear();
    WANT(do_one(CACHE_STORE, "next", 100) == CACHE_YES && removed() == 0);
    WANT(counts->whole > 0 && counts->torn == 0);
    printf("%llu copies were whole, %llu did not count, %llu were torn\n",
           (unsigned long long)counts->whole, (unsigned long long)counts->lost,
           (unsigned long long)counts->torn);
    puts(failed == 0 ? "as it should be" : "not as it should be");
    return failed != 0;
}
