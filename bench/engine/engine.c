/* SPDX-License-Identifier: MIT */
/* Times of this repository's engine, by the library for C, and of APCu's, by its own C functions:
 * a module for PHP, since APCu's engine is inside one. Both are called in the same loops, with the
 * same keys and values, batch by batch in turn.
 *
 * engine_bench(rows) prints lines "SIDE PICOSECONDS CALL": the lowest of all batches, per call. The
 * sides are `plain`, ours without a lock, `locked`, ours with a robust lock of all processes around
 * each call, and `apcu`, which takes its own lock. A key is a string of 10 bytes whose hash is not
 * known yet, and a text that is fetched is copied into a new string of PHP's, which is freed, as both
 * would do it in an extension.
 *
 * engine_at_once(rows, processes) prints such lines for some calls, with the sides that have a lock,
 * while this many processes call at once: picoseconds by the clock for each call of all. */
#include "calls.h"

#include "../../capi/shared_cache.h"

#include <sched.h>
#include <stdatomic.h>
#include <sys/mman.h>
#include <sys/wait.h>
#include <time.h>
#include <unistd.h>

static bool nothing(zend_string *key, zval *value) {
    (void)value;
    return ZSTR_LEN(key) != 0;
}

enum { MOST_MEASURES = 32, BATCH = 10000 };
enum { PLAIN, LOCKED, APCU, SIDES };
static const char *const side_names[SIDES] = {"plain", "locked", "apcu"};

/* The rows of a kind. */
static struct rows {
    zend_string **keys;
    size_t count;
    zval value;
} rows[KINDS];

static uint64_t least[SIDES][MOST_MEASURES], least_nothing[SIDES];
static uint64_t wrong; /* calls that answered something else */

static uint64_t nanoseconds(void) {
    struct timespec t;
    clock_gettime(CLOCK_MONOTONIC, &t);
    return (uint64_t)t.tv_sec * 1000000000 + (uint64_t)t.tv_nsec;
}

/* Calls all rows of a kind, and keeps the least picoseconds that a call of a batch took. */
static void time_calls(struct rows *of, call *one, uint64_t *ps) {
    for (size_t from = 0; from < of->count; from += BATCH) {
        size_t to = of->count - from < BATCH ? of->count : from + BATCH;
        uint64_t begin = nanoseconds();
        for (size_t i = from; i < to; i++)
            wrong += !one(of->keys[i], &of->value);
        uint64_t each = (nanoseconds() - begin) * 1000 / (to - from);
        if (each < *ps)
            *ps = each;
    }
}

/* The order of each kind's keys is drawn again. */
static void shuffle(void) {
    static uint64_t drawn = 1;
    for (int kind = 0; kind < KINDS; kind++)
        for (size_t i = rows[kind].count; i > 1; i--) {
            drawn = drawn * 6364136223846793005u + 1442695040888963407u;
            size_t j = (size_t)(drawn >> 33) % i;
            zend_string *key = rows[kind].keys[i - 1];
            rows[kind].keys[i - 1] = rows[kind].keys[j];
            rows[kind].keys[j] = key;
        }
}

/* The call of a measure on one side. */
static call *on_side(const struct measure *of, int side) {
    is_locked = side == LOCKED;
    return side == APCU ? of->apcus : of->ours;
}

/* A measure on one side. Large texts take long, and vary little: a few rounds are enough. */
static void time_measure(const struct measure *of, int side, size_t round) {
    if (of->kind < TEN_KB || round < 20)
        time_calls(&rows[of->kind], on_side(of, side), &least[side][of - measures]);
}

/* All measures: each on one side after another, with those that make whole again what it does. A
 * side that begins finds what the others left in the processor's caches, so it begins twice, and
 * another one is the first in each round. */
static void time_all(size_t round) {
    shuffle();
    for (int side = 0; side < SIDES; side++)
        time_calls(&rows[EIGHT], nothing, &least_nothing[side]);
    for (size_t from = 0, to; measures[from].name; from = to) {
        for (to = from + 1; measures[to - 1].is_half; to++)
            ;
        for (size_t turn = 0; turn < 2 * SIDES; turn++)
            for (size_t i = from; i < to; i++)
                time_measure(&measures[i], (int)((turn / 2 + round) % SIDES), round);
    }
}

/* What processes see that call at once: whether they begin, and when each ended. */
enum { MOST_PROCESSES = 64 };
static struct at_once {
    atomic_bool is_begun;
    uint64_t ends[MOST_PROCESSES];
} * at_once;

/* A process makes `calls` calls, each from another row on, and ends. */
static void call_and_exit(struct rows *of, call *one, size_t calls, int process) {
    bool is_good = true;
    while (!atomic_load(&at_once->is_begun))
        sched_yield();
    for (size_t i = 0, at = of->count * (size_t)process / MOST_PROCESSES; i < calls; i++) {
        is_good &= one(of->keys[at], &of->value);
        at = at + 1 < of->count ? at + 1 : 0;
    }
    at_once->ends[process] = nanoseconds();
    _exit(!is_good);
}

/* Picoseconds by the clock for each call of all that this many processes make. */
static uint64_t time_at_once(const struct measure *of, int side, int processes) {
    size_t calls = of->kind < TEN_KB ? 300000 : 30000;
    call *one = on_side(of, side);
    atomic_store(&at_once->is_begun, false);
    for (int i = 0; i < processes; i++) {
        pid_t child = fork();
        if (child == 0)
            call_and_exit(&rows[of->kind], one, calls, i);
        wrong += child < 0;
    }
    uint64_t begin = nanoseconds(), end = begin;
    atomic_store(&at_once->is_begun, true);
    for (int status; wait(&status) > 0;)
        wrong += status != 0;
    for (int i = 0; i < processes; i++)
        end = at_once->ends[i] > end ? at_once->ends[i] : end;
    return (end - begin) * 1000 / (calls * (size_t)processes);
}

static void fill_text(zval *value, size_t len) {
    ZVAL_STR(value, zend_string_alloc(len, false));
    memset(Z_STRVAL_P(value), 'x', len);
    Z_STRVAL_P(value)[len] = '\0';
}

static zend_string *key_of(char first, size_t number) {
    char key[11];
    snprintf(key, sizeof key, "%c%09zu", first, number);
    return zend_string_init(key, 10, false);
}

static void fill(size_t all) {
    static const size_t lens[KINDS] = {
        [EIGHT] = 8, [HUNDRED] = 100, [TEN_KB] = 10000, [ONE_MB] = 1000000};
    for (int kind = 0; kind < KINDS; kind++) {
        size_t most = all < 10000 ? 100 : 1000; /* of 10 KB */
        rows[kind].count = kind == ONE_MB ? 8 : kind == TEN_KB ? most : all / 10;
        rows[kind].keys = emalloc(rows[kind].count * sizeof *rows[kind].keys);
        if (lens[kind])
            fill_text(&rows[kind].value, lens[kind]);
        else
            ZVAL_LONG(&rows[kind].value, 7);
    }
    zval truth;
    ZVAL_TRUE(&truth);
    for (size_t i = 0; i < all; i++) {
        size_t kind = i % 10;
        zend_string *key = key_of('k', i);
        wrong += !store_on_both(key, kind < 4 ? &rows[kind].value : &truth);
        if (kind < 4)
            rows[kind].keys[i / 10] = key;
        else
            zend_string_release(key);
    }
    for (int kind = TEN_KB; kind <= ONE_MB; kind++)
        for (size_t i = 0; i < rows[kind].count; i++) {
            rows[kind].keys[i] = key_of(kind == TEN_KB ? 't' : 'm', i);
            wrong += !store_on_both(rows[kind].keys[i], &rows[kind].value);
        }
}

/* The first prime from a number on. */
static uint32_t prime_from(uint32_t number) {
    for (uint32_t divisor = 2; divisor <= number / divisor; divisor++)
        if (number % divisor == 0) {
            number++;
            divisor = 1;
        }
    return number;
}

/* Makes and fills both caches; false if there is none of ours. APCu takes a prime number of
 * slots, and ours is even. */
static bool start(size_t all) {
    cache_shape shape = {.words = 1 << 24, .slots = 4096, .segments = 1};
    if (all > 4096)
        shape.slots = 2 * prime_from((uint32_t)(all / 2));
    if (shared_start(&shape) != CACHE_MADE) {
        zend_throw_error(NULL, "there is no cache");
        return false;
    }
    handle = shared_enter();
    shared_leave();
    begin_calls();
    fill(all);
    return true;
}

static void tell(int side, uint64_t ps, const struct measure *of) {
    php_printf("%s %lld %s\n", side_names[side], (long long)ps, of->name);
}

static void tell_of_wrong(void) {
    if (wrong)
        zend_throw_error(NULL, "%llu calls answered something else", (unsigned long long)wrong);
}

static size_t tens(zend_long all) { return all < 10 ? 10 : (size_t)all / 10 * 10; }

ZEND_BEGIN_ARG_INFO_EX(bench_arguments, 0, 0, 1)
ZEND_ARG_INFO(0, rows)
ZEND_END_ARG_INFO()

PHP_FUNCTION(engine_bench) {
    zend_long all;
    ZEND_PARSE_PARAMETERS_START(1, 1)
    Z_PARAM_LONG(all)
    ZEND_PARSE_PARAMETERS_END();
    if (!start(tens(all)))
        return;
    memset(least, 0xFF, sizeof least);
    memset(least_nothing, 0xFF, sizeof least_nothing);
    size_t rounds = 3 + 200000 / tens(all);
    for (size_t round = 0; round < rounds; round++)
        time_all(round);
    for (int side = 0; side < SIDES; side++)
        for (size_t i = 0; measures[i].name; i++)
            tell(side, least[side][i] - least_nothing[side], &measures[i]);
    tell_of_wrong();
}

ZEND_BEGIN_ARG_INFO_EX(at_once_arguments, 0, 0, 2)
ZEND_ARG_INFO(0, rows)
ZEND_ARG_INFO(0, processes)
ZEND_END_ARG_INFO()

PHP_FUNCTION(engine_at_once) {
    zend_long all, processes;
    ZEND_PARSE_PARAMETERS_START(2, 2)
    Z_PARAM_LONG(all)
    Z_PARAM_LONG(processes)
    ZEND_PARSE_PARAMETERS_END();
    at_once =
        mmap(NULL, sizeof *at_once, PROT_READ | PROT_WRITE, MAP_SHARED | MAP_ANONYMOUS, -1, 0);
    if (at_once == MAP_FAILED || processes < 1 || processes > MOST_PROCESSES) {
        zend_throw_error(NULL, "too many processes");
        return;
    }
    if (!start(tens(all)))
        return;
    for (size_t i = 0; measures[i].name; i++)
        for (int side = LOCKED; measures[i].is_at_once && side <= APCU; side++)
            tell(side, time_at_once(&measures[i], side, (int)processes), &measures[i]);
    tell_of_wrong();
}

static const zend_function_entry functions[] = {
    PHP_FE(engine_bench, bench_arguments) PHP_FE(engine_at_once, at_once_arguments) PHP_FE_END};

zend_module_entry engine_module_entry = {
    STANDARD_MODULE_HEADER,    "engine", functions, NULL, NULL, NULL, NULL, NULL, "1",
    STANDARD_MODULE_PROPERTIES};
ZEND_GET_MODULE(engine)
