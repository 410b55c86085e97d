/* SPDX-License-Identifier: MIT */
/* Eight processes share a cache. First they count together. Then each stores and fetches texts,
 * and one after another is killed at a random moment; if one died inside a call, the next
 * process that enters recreates the cache. Prints what was found.
 * Usage: forked [COUNTS-OF-EACH [KILLS]] */
#define _GNU_SOURCE
#include "shared_cache.h"

#include <signal.h>
#include <stdio.h>
#include <stdlib.h>
#include <string.h>
#include <sys/prctl.h>
#include <sys/wait.h>
#include <time.h>
#include <unistd.h>

enum { CHILDREN = 8, KEYS = 200, LONGEST = 5000 };

static void stop(const char *why) {
    perror(why);
    exit(1);
}

/* One event of the cache, and the bytes of a string that it answers. The bytes are in the words
 * until the next event, so they are copied before another process can enter. */
static cache_answer ask(cache_request request, const char *key, const char *text, size_t len,
                        char *out) {
    request.t = (uint64_t)time(NULL);
    uint8_t *at = shared_enter();
    cache_answer answer =
        cache_ask(at, &request, (const uint8_t *)key, strlen(key), (const uint8_t *)text, len);
    if (out && answer.kind == CACHE_STR &&
        !(answer.len <= LONGEST && cache_copy(at, answer.place, (uint8_t *)out, answer.len)))
        answer.kind = CACHE_BAD;
    shared_leave();
    return answer;
}

/* A process of its own for this work, which ends with its parent. */
static pid_t begin(int (*work)(unsigned), unsigned number) {
    pid_t parent = getpid(), child = fork();
    if (child < 0)
        stop("fork");
    if (child > 0)
        return child;
    prctl(PR_SET_PDEATHSIG, SIGKILL);
    _exit(getppid() == parent ? work(number) : 1);
}

static int count(unsigned times) {
    for (unsigned i = 0; i < times; i++)
        if (ask((cache_request){.kind = CACHE_COUNT, .number = 1}, "n", "", 0, NULL).kind !=
            CACHE_INT)
            return 1;
    return 0;
}

/* All bytes of a text are the letter of its length, so a text is torn if one is another. */
static char letter(size_t len) { return (char)('a' + len % 26); }

static bool is_whole(const char *text, size_t len) {
    for (size_t i = 0; i < len; i++)
        if (text[i] != letter(len))
            return false;
    return true;
}

/* Stores and fetches without end; it ends if a text is torn, or an answer is unexpected. */
static int store_and_fetch(unsigned seed) {
    static char text[LONGEST];
    for (;;) {
        char key[16];
        snprintf(key, sizeof key, "k%u", rand_r(&seed) % KEYS);
        size_t len = (size_t)rand_r(&seed) % (LONGEST + 1);
        memset(text, letter(len), len);
        cache_request store = {.kind = CACHE_STORE, .value = CACHE_STR};
        if (ask(store, key, text, len, NULL).kind != CACHE_YES)
            return 1;
        snprintf(key, sizeof key, "k%u", rand_r(&seed) % KEYS);
        cache_answer found = ask((cache_request){.kind = CACHE_LOOK}, key, "", 0, text);
        if (found.kind != CACHE_ABSENT && !(found.kind == CACHE_STR && is_whole(text, found.len)))
            return 1;
    }
}

/* Kills this many children, and returns how many had ended before, which none does by itself. */
static unsigned kill_children(unsigned kills) {
    pid_t child[CHILDREN];
    unsigned seed = 1, ended = 0;
    for (unsigned i = 0; i < CHILDREN; i++)
        child[i] = begin(store_and_fetch, i);
    for (unsigned i = 0; i < kills; i++) {
        pid_t *one = &child[i % CHILDREN];
        int status;
        usleep((useconds_t)(rand_r(&seed) % 3000));
        kill(*one, SIGKILL);
        if (waitpid(*one, &status, 0) != *one)
            stop("waitpid");
        if (!WIFSIGNALED(status) || WTERMSIG(status) != SIGKILL)
            ended++;
        *one = begin(store_and_fetch, CHILDREN + i);
    }
    for (unsigned i = 0; i < CHILDREN; i++) {
        kill(child[i], SIGKILL);
        waitpid(child[i], NULL, 0);
    }
    return ended;
}

int main(int argc, char **argv) {
    unsigned each = argc > 1 ? (unsigned)atoi(argv[1]) : 125000;
    unsigned kills = argc > 2 ? (unsigned)atoi(argv[2]) : 300;
    cache_shape shape = {.words = 1 << 20, .slots = 4096, .segments = 1};
    if (shared_start(&shape) != CACHE_MADE)
        stop("no cache");

    for (unsigned i = 0; i < CHILDREN; i++)
        begin(count, each);
    bool all_counted = true;
    for (int status; wait(&status) > 0;)
        all_counted = all_counted && status == 0;
    cache_answer sum = ask((cache_request){.kind = CACHE_LOOK}, "n", "", 0, NULL);
    printf("%d children counted to %lld of %llu\n", CHILDREN, (long long)sum.number,
           (unsigned long long)CHILDREN * each);
    all_counted = all_counted && sum.kind == CACHE_INT && sum.number == (int64_t)CHILDREN * each;

    unsigned torn = kill_children(kills);
    cache_answer last = ask((cache_request){.kind = CACHE_STORE}, "last", "", 0, NULL);
    shared_enter();
    shared_deaths deaths = shared_get_deaths();
    shared_leave();
    printf("%u kills: %llu under the lock outside a call, %llu inside, each of which recreated "
           "the cache\n%u children read a torn text or another answer\n",
           kills, (unsigned long long)deaths.outside, (unsigned long long)deaths.inside, torn);
    bool is_good = all_counted && torn == 0 && last.kind == CACHE_YES;
    puts(is_good ? "as it should be" : "not as it should be");
    return is_good ? 0 : 1;
}
