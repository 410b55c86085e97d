/* SPDX-License-Identifier: MIT */
/* The hooks of a host (shared_host.h): shared_before and shared_after are called in pairs on each
 * path, and the second one when the lock or the lane was released; a process that records notes each
 * event once, and takes no lane and no seat; each time that the counts begin from 0 and each death
 * is reported; and the lock is free if no cache could be made. Prints each line that fails, and how
 * many did. */
#define _GNU_SOURCE
#include "shared_host.h"
#include "want.h"

#include <signal.h>
#include <stdio.h>
#include <stdlib.h>
#include <sys/wait.h>

/* What the hooks of this process saw. */
static int depth;
static bool is_recorded;
static unsigned wrong, releases, notes, resets, deaths, remakes;
static cache_request noted;
static cache_answer noted_answer;

static bool has_lock(void) {
#ifdef FUTEX_TID_MASK
    return shared_at && !shared_at->lock.is_mutex && robust_self.id != 0 &&
           (shared_at->lock.word & FUTEX_TID_MASK) == robust_self.id;
#else
    return false;
#endif
}

static inline void shared_before(void) {
    wrong += depth != 0 || has_lock();
    depth++;
}

static inline void shared_after(bool had_lock) {
    depth--;
    wrong += depth != 0 || has_lock();
    releases += had_lock;
}

static inline bool shared_is_recorded(void) { return is_recorded; }
static inline bool shared_are_all_recorded(void) { return is_recorded; }

static inline void shared_note(const cache_request *request, const uint8_t *key, size_t key_len,
                               const uint8_t *bytes, size_t len, const cache_answer *answer) {
    wrong += depth != 1 || !key || key_len > 8 || !bytes || len > 65536;
    notes++;
    noted = *request;
    noted_answer = *answer;
}

static inline void shared_note_reset(void) { resets++; }

static inline void shared_note_death(bool is_remade) {
    wrong += depth != 1;
    deaths++;
    remakes += is_remade;
}

#define SHARED_HOST
#include "shared_cache.c"

static const uint64_t now = 1000;
static char text[65536];

static cache_answer ask(cache_request request, const char *key, size_t len) {
    cache_answer answer = {.kind = CACHE_BAD};
    request.t = now;
    request.hash = cache_hash((const uint8_t *)key, strlen(key));
    if (shared_lock()) {
        answer = shared_ask(&request, (const uint8_t *)key, strlen(key), (uint8_t *)text, len);
        shared_unlock();
    }
    return answer;
}

static uint32_t store(const char *key, size_t len) {
    return ask((cache_request){.kind = CACHE_STORE, .value = CACHE_STR}, key, len).kind;
}

/* Whether a shared read finds the key; false if there was none. */
static bool reads(const char *key) {
    const uint8_t *bytes = (const uint8_t *)key;
    struct cache_found found;
    shared_reading one;
    if (!shared_read_begin(&one, now, true))
        return false;
    shared_read_find(bytes, strlen(key), cache_hash(bytes, strlen(key)), now, &found);
    shared_read_note(&one, found.row, now);
    shared_read_end(&one);
    return found.row != 0;
}

static void of_events(void) {
    WANT(store("k", 9) == CACHE_YES && notes == 0 && releases == 1);
    WANT(reads("k") && reads("k") && !reads("none"));
    cache_row row = {0};
    WANT(shared_lock());
    row = cache_find_row(shared_at->cache, (const uint8_t *)"k", 1, now);
    WANT(row.hits == 2 && cache_get_counts(shared_at->cache).misses == 1);
    shared_unlock();

    is_recorded = true;
    WANT(store("k", 5000) == CACHE_YES && notes == 1);
    WANT(noted.kind == CACHE_STORE && noted_answer.kind == CACHE_YES);
    WANT(!reads("k") && notes == 1);
    unsigned seat;
    shared_text held;
    for (int i = 0; i < 2; i++, is_recorded = false) {
        WANT(shared_lock());
        cache_answer answer = shared_look((const uint8_t *)"k", 1,
                                          cache_hash((const uint8_t *)"k", 1), now, &seat);
        WANT(answer.kind == CACHE_STR && answer.len == 5000);
        shared_hold_found(&answer, seat, &held);
        shared_unlock();
        WANT((seat == CACHE_SEATS) == is_recorded && (held.bytes == NULL) == is_recorded);
    }
    WANT(notes == 2 && noted.kind == CACHE_LOOK && noted_answer.len == 5000);
    WANT(held.len == 5000 && memcmp(held.bytes, text, held.len) == 0 && shared_let_go(&held));
}

static void of_nulls(void) {
    cache_request fetch = {.kind = CACHE_LOOK, .t = now}, put = {.kind = CACHE_STORE, .t = now};
    const uint8_t *key = (const uint8_t *)"";
    fetch.hash = put.hash = cache_hash(key, 0);
    put.value = CACHE_STR;
    WANT(shared_lock());
    cache_counts before = cache_get_counts(shared_at->cache);
    WANT(shared_ask(&fetch, NULL, 1, key, 0).kind == CACHE_BAD);
    WANT(shared_ask(&put, key, 0, NULL, 1).kind == CACHE_BAD);
    WANT(shared_ask(&put, key, 0, key, SIZE_MAX).kind == CACHE_TOO_LONG);
    WANT(shared_ask(&fetch, key, SIZE_MAX, NULL, 0).kind == CACHE_TOO_LONG);
    cache_counts after = cache_get_counts(shared_at->cache);
    WANT(memcmp(&before, &after, sizeof before) == 0);
    WANT(shared_ask(&put, NULL, 0, NULL, 0).kind == CACHE_YES);
    WANT(shared_ask(&fetch, NULL, 0, NULL, 0).kind == CACHE_STR);
    shared_unlock();
}

static void of_resets(void) {
    unsigned before = resets;
    WANT(ask((cache_request){.kind = CACHE_CLEAR}, "", 0).kind == CACHE_YES);
    WANT(resets == before + 1);
    for (char key[] = "a"; key[0] < 'a' + 20; key[0]++)
        WANT(store(key, 1000) == CACHE_YES);
    WANT(resets == before + 1);
    WANT(store("large", 30000) == CACHE_YES && resets == before + 2);
    WANT(store("large", 10) == CACHE_YES && resets == before + 2);
    WANT(ask((cache_request){.kind = CACHE_DELETE}, "large", 0).kind == CACHE_YES);
    WANT(resets == before + 2);
}

/* A child that dies with the lock, after this work. */
static void die(void (*work)(void)) {
    pid_t child = fork();
    if (child == 0) {
        robust_lock_take(&shared_at->lock);
        work();
        raise(SIGKILL);
    }
    WANT(child > 0 && waitpid(child, NULL, 0) == child);
}

static void do_nothing(void) {}
static void be_busy(void) { shared_at->is_busy = true; }

static void be_busy_without_shape(void) {
    shared_at->shape.slots = 3;
    be_busy();
}

static void be_busy_with_shape(void) {
    shared_at->shape.slots = 16;
    be_busy();
}

static void of_deaths(void) {
    unsigned before = resets;
    WANT(store("k", 9) == CACHE_YES);
    die(do_nothing);
    WANT(reads("k") && deaths == 1 && remakes == 0 && resets == before);
    die(be_busy);
    WANT(!reads("k") && deaths == 2 && remakes == 1 && resets == before + 1);
    WANT(store("k", 9) == CACHE_YES && reads("k"));

    die(be_busy_without_shape);
    WANT(!shared_lock() && deaths == 3 && remakes == 2 && !shared_at->is_made);
    WANT(!shared_lock() && !reads("k") && deaths == 3 && !has_lock());
    die(be_busy_with_shape);
    WANT(store("k", 9) == CACHE_YES && reads("k") && deaths == 4 && remakes == 3);
    WANT(shared_get_deaths().inside == 3 && shared_get_deaths().outside == 1);
}

int main(void) {
    cache_shape shape = {.words = 4096, .slots = 16, .segments = 1}, bad = shape;
    size_t bytes = 0;
    memset(text, 't', sizeof text);
    bad.slots = 3;
    WANT(!shared_lock() && !reads("k") && depth == 0);
    WANT(shared_is_good(&shape) && !shared_is_good(&bad) && !shared_is_good(NULL));
    WANT(shared_start_for(&bad, 8, false, &bytes) == CACHE_BAD_SHAPE && !shared_at);
    if (shared_start_for(&shape, 8, false, &bytes) != CACHE_MADE)
        return 1;
    WANT(resets == 2);
    WANT(bytes > 8 * (size_t)shape.words && shared_at->size <= bytes);
    uint64_t *own = shared_own();
    WANT(*own == 0 && (uint8_t *)own + 8 <= shared_at->cache);
    *own = 4711;
    of_events();
    of_nulls();
    of_resets();
    of_deaths();
    WANT(*own == 4711 && depth == 0 && wrong == 0);
    shared_end();
    WANT(!shared_lock() && !reads("k") && depth == 0);
    printf("%u passed, %u failed\n", passed, failed);
    return failed != 0;
}
