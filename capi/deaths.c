/* SPDX-License-Identifier: MIT */
/* Deaths one by one. A child enters, stores over a row and leaves; its parent steps it, and kills it
 * after its first instruction, after its second, and so on: at each where the lock is taken and
 * released, and at some of the call. Then the parent enters, and finds all of the old text or of the
 * new one, or an empty cache that was recreated. Then the same for a child that recreates the cache
 * because another one died inside a call, and for one that copies a long text outside of the
 * lock: at the end no row is kept for a dead process. Stores and copies are made by the calls of
 * shared_cache.h, and by those of a host, as the extension for PHP makes them.
 * Usage: deaths. Ends with status 77 if processes may not be stepped. */
#define _GNU_SOURCE
#include "shared_host.h"

#include <signal.h>
#include <stdio.h>
#include <stdlib.h>
#include <string.h>
#include <sys/ptrace.h>
#include <sys/wait.h>
#include <unistd.h>

enum { NO_STEPS = 77, SLOTS = 16 };

/* Nothing of the cache depends on the clock here. */
static const uint64_t now = 1000;
static const char before[] = "the text that was there", after[] = "another and a longer text";

static cache_answer ask(uint8_t *at, cache_request request, const char *text) {
    request.t = now;
    return cache_ask(at, &request, (const uint8_t *)"key", 3, (const uint8_t *)text, strlen(text));
}

static bool stores(uint8_t *at, const char *text) {
    return ask(at, (cache_request){.kind = CACHE_STORE, .value = CACHE_STR}, text).kind ==
           CACHE_YES;
}

static bool holds(uint8_t *at, const char *text) {
    char found[64] = {0};
    cache_answer a = ask(at, (cache_request){.kind = CACHE_LOOK}, "");
    return a.kind == CACHE_STR && a.len == strlen(text) &&
           cache_copy(at, a.place, (uint8_t *)found, a.len) && memcmp(found, text, a.len) == 0;
}

/* What a child does. */
static void store_over(void) {
    stores(shared_enter(), after);
    shared_leave();
}

static void host_store_over(void) {
    static const uint8_t key[] = "key";
    cache_request store = {.kind = CACHE_STORE, .value = CACHE_STR, .t = now};
    store.hash = cache_hash(key, 3);
    if (!shared_lock())
        return;
    shared_ask(&store, key, 3, (const uint8_t *)after, strlen(after));
    shared_unlock();
}

static void put_long(uint8_t *at) {
    static char text[5000];
    cache_request store = {.kind = CACHE_STORE, .value = CACHE_STR, .t = now};
    memset(text, 'l', sizeof text);
    cache_ask(at, &store, (const uint8_t *)"long", 4, (const uint8_t *)text, sizeof text);
}

static void copy_held(const shared_text *held) {
    static uint8_t copy[5000];
    if (held->bytes) {
        memcpy(copy, held->bytes, sizeof copy);
        shared_let_go(held);
    }
}

static void copy_long(void) {
    shared_text held;
    shared_enter();
    shared_hold((const uint8_t *)"long", 4, now, &held);
    shared_leave();
    copy_held(&held);
}

static void host_copy_long(void) {
    static const uint8_t key[] = "long";
    shared_text held;
    unsigned seat;
    if (!shared_lock())
        return;
    cache_answer answer = shared_look(key, 4, cache_hash(key, 4), now, &seat);
    shared_hold_found(&answer, seat, &held);
    shared_unlock();
    copy_held(&held);
}

/* Whether the row's block is free after it is deleted, though processes died while they copied it. */
static bool is_let_go(void) {
    cache_row row;
    uint8_t *at = shared_enter();
    cache_request delete = {.kind = CACHE_DELETE, .t = now};
    cache_ask(at, &delete, (const uint8_t *)"long", 4, NULL, 0);
    stores(at, before);
    bool is_gone = cache_list_rows(at, SLOTS, 0, &row, 1) == 0;
    shared_leave();
    return is_gone;
}

static void enter_only(void) {
    shared_enter();
    shared_leave();
}

static void die_inside(void) {
    shared_enter();
    raise(SIGKILL);
}

/* Lets a child do this, and kills it after `steps` instructions; -1 is never. How many it did. */
static long step(void (*work)(void), long most) {
    int status;
    pid_t child = fork();
    if (child == 0) {
        if (ptrace(PTRACE_TRACEME, 0, NULL, NULL) != 0)
            _exit(NO_STEPS);
        raise(SIGSTOP);
        work();
        _exit(0);
    }
    if (child < 0 || waitpid(child, &status, 0) != child || !WIFSTOPPED(status) ||
        ptrace(PTRACE_SETOPTIONS, child, NULL, PTRACE_O_EXITKILL) != 0) {
        puts("no process may be stepped here");
        exit(NO_STEPS);
    }
    long steps = 0;
    while (steps != most && ptrace(PTRACE_SINGLESTEP, child, NULL, NULL) == 0 &&
           waitpid(child, &status, 0) == child && WIFSTOPPED(status))
        steps++;
    if (WIFSTOPPED(status)) {
        kill(child, SIGKILL);
        waitpid(child, &status, 0);
    }
    return steps;
}

static void kill_inside(void) {
    pid_t child = fork();
    if (child == 0)
        die_inside();
    waitpid(child, NULL, 0);
}

/* The instructions at which a child is killed: all of its first and last hundreds, at which the lock
 * is taken and released, and some between. */
static long following(long at, long all) {
    enum { EACH = 120, BETWEEN = 47 };
    return at < EACH || at >= all - EACH ? at + 1 : at + BETWEEN;
}

/* How often there was the old text, the new one, an empty cache, and a wrong state. */
struct found {
    unsigned old, new, empty, wrong;
};

/* What the parent finds after a death; then the row has its old text again. */
static void find(struct found *found, bool must_be_empty) {
    uint8_t *at = shared_enter();
    static uint64_t inside;
    bool is_new_cache = shared_get_deaths().inside != inside;
    inside = shared_get_deaths().inside;
    bool is_empty = ask(at, (cache_request){.kind = CACHE_LOOK}, "").kind == CACHE_ABSENT;
    if (is_new_cache != is_empty || (must_be_empty && !is_empty))
        found->wrong++;
    else if (is_empty)
        found->empty++;
    else if (holds(at, before))
        found->old++;
    else if (holds(at, after))
        found->new ++;
    else
        found->wrong++;
    if (!stores(at, before) || !holds(at, before))
        found->wrong++;
    if (is_empty)
        put_long(at);
    shared_leave();
}

/* Lets a child die at its instructions, after another one died inside a call or none did. */
static struct found find_all(void (*work)(void), bool after_a_death) {
    struct found found = {0};
    if (after_a_death)
        kill_inside();
    long all = step(work, -1);
    find(&(struct found){0}, after_a_death);
    for (long at = 0; at <= all; at = following(at, all)) {
        if (after_a_death)
            kill_inside();
        step(work, at);
        find(&found, after_a_death);
    }
    return found;
}

static void tell(const char *of, struct found found) {
    printf("deaths in %s: %u left the old text, %u the new one, %u an empty cache; %u wrong\n", of,
           found.old, found.new, found.empty, found.wrong);
}

static bool is_good(struct found of_store, struct found of_copy) {
    return of_copy.wrong == 0 && of_copy.old > 0 && of_store.wrong == 0 && of_store.old > 0 &&
           of_store.new > 0 && of_store.empty > 0;
}

static struct found find_copies(void (*work)(void)) {
    put_long(shared_enter());
    shared_leave();
    struct found copied = find_all(work, false);
    copied.wrong += !is_let_go();
    return copied;
}

int main(void) {
    cache_shape shape = {.words = 4096, .slots = SLOTS, .segments = 1};
    if (shared_start(&shape) != CACHE_MADE)
        return 1;
    uint8_t *at = shared_enter();
    stores(at, before);
    put_long(at);
    shared_leave();
    struct found stored = find_all(store_over, false);
    tell("a store", stored);
    struct found made = find_all(enter_only, true);
    tell("recreating it", made);
    struct found copied = find_copies(copy_long);
    tell("a copy", copied);
    struct found host_stored = find_all(host_store_over, false);
    tell("a host's store", host_stored);
    struct found host_copied = find_copies(host_copy_long);
    tell("a host's copy", host_copied);
    bool good = is_good(stored, copied) && is_good(host_stored, host_copied) && made.wrong == 0 &&
                made.empty > 0;
    puts(good ? "as it should be" : "not as it should be");
    return good ? 0 : 1;
}
