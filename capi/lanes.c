/* SPDX-License-Identifier: MIT */
/* Deaths in lanes. A child is stepped, and killed after its first instruction, its second, and so
 * on:
 * - a reader, from before it takes its lane until it has released it, while a writer waits for it;
 * - a writer that waits for a reader's lane, and one that was woken;
 * - a process that fetches from a cache, and one that counts what others have fetched.
 * Each time another writer has to get the lock within three seconds, and all notes have to be
 * there. No row of the cache may be missing. Usage: lanes. It ends with status 77 if processes may
 * not be stepped. */
#define _GNU_SOURCE
/* Each look is stepped through. */
#define ROBUST_LOCK_LOOKS 2
#define LANES_LOOKS 2
#include "lanes.h"
#include "shared_cache.h"

#include <limits.h>
#include <signal.h>
#include <stdio.h>
#include <stdlib.h>
#include <string.h>
#include <sys/mman.h>
#include <sys/ptrace.h>
#include <sys/wait.h>

enum { NO_STEPS = 77, ROW = 4711, SLOTS = 16, ROWS = 5 };

/* Nothing of the cache depends on the clock here. */
static uint64_t now = 1000;

static struct {
    robust_lock lock;
    lanes lanes;
} * both;

static void stop(const char *why) {
    puts(why);
    exit(1);
}

/* What children do. Those that are stepped stop themselves before. */
static void read_once(void) {
    raise(SIGSTOP);
    lane *mine = lanes_enter(&both->lanes, &both->lock);
    if (!mine)
        return;
    lane_note(mine, ROW);
    lane_release(mine);
}

static void read_until_continued(void) {
    lane *mine = lanes_enter(&both->lanes, &both->lock);
    raise(SIGSTOP);
    if (mine)
        lane_release(mine);
}

static void write_once(void) {
    raise(SIGSTOP);
    robust_lock_take(&both->lock);
    lanes_wait(&both->lanes);
    robust_lock_give(&both->lock);
}

/* It ends with the result of taking the lock. */
static void write_and_exit(void) {
    int taken = robust_lock_take(&both->lock);
    lanes_wait(&both->lanes);
    robust_lock_give(&both->lock);
    _exit(taken);
}

static uint8_t key_of(int row) { return (uint8_t)('a' + row); }

static void fetch_once(void) {
    uint8_t copy[16], key = key_of(0);
    raise(SIGSTOP);
    shared_fetch(&key, 1, now, copy, sizeof copy);
}

/* Of another second than the fetches before, so they are counted first. */
static void fetch_later(void) {
    uint8_t copy[16], key = key_of(0);
    raise(SIGSTOP);
    shared_fetch(&key, 1, ++now, copy, sizeof copy);
}

static pid_t begin(void (*work)(void), bool is_stepped) {
    pid_t child = fork();
    if (child < 0)
        stop("no fork");
    if (child == 0) {
        if (is_stepped && ptrace(PTRACE_TRACEME, 0, NULL, NULL) != 0)
            _exit(NO_STEPS);
        work();
        _exit(0);
    }
    return child;
}

static void wait_for_stop(pid_t child, int options) {
    int status;
    if (waitpid(child, &status, options) != child || !WIFSTOPPED(status)) {
        puts("no process may be stepped here");
        exit(NO_STEPS);
    }
}

static pid_t begin_stepped(void (*work)(void)) {
    pid_t child = begin(work, true);
    wait_for_stop(child, 0);
    if (ptrace(PTRACE_SETOPTIONS, child, NULL, PTRACE_O_EXITKILL) != 0)
        stop("a child can't be stepped");
    return child;
}

static bool sleeps(pid_t process) {
    char path[40], state = 0;
    snprintf(path, sizeof path, "/proc/%d/stat", (int)process);
    FILE *file = fopen(path, "r");
    bool is_read = file && fscanf(file, "%*d %*s %c", &state) == 1;
    if (file)
        fclose(file);
    return is_read && state == 'S';
}

/* Waits until a process sleeps or has ended. */
static void let_sleep(pid_t process) {
    siginfo_t ended;
    for (int i = 0; i < 30000 && !sleeps(process); i++) {
        ended.si_pid = 0;
        if (waitid(P_PID, (id_t)process, &ended, WEXITED | WNOHANG | WNOWAIT) == 0 &&
            ended.si_pid == process)
            return;
        usleep(100);
    }
}

/* The result of a step: it was made, the child ended, or it sleeps within the step. */
enum { STEPPED, ENDED, SLEEPS };

static int step(pid_t child, long steps) {
    for (long i = 0; i < steps; i++) {
        int status;
        ptrace(PTRACE_SINGLESTEP, child, NULL, NULL);
        for (;;) {
            if (waitpid(child, &status, WNOHANG) == child) {
                if (!WIFSTOPPED(status))
                    return ENDED;
                break;
            }
            if (sleeps(child))
                return SLEEPS;
        }
    }
    return STEPPED;
}

static void end(pid_t child) {
    kill(child, SIGKILL);
    waitpid(child, NULL, 0);
}

/* How often a writer got the lock, got it with the owner's death, or neither; and what else was
 * wrong. */
struct found {
    unsigned given, left, stuck, wrong;
};

/* The result of a writer, within three seconds. */
static void find(struct found *found, pid_t writer) {
    for (int i = 0; i < 3000; i++) {
        int status;
        if (waitpid(writer, &status, WNOHANG) == writer) {
            if (WIFEXITED(status) && WEXITSTATUS(status) == 0)
                found->given++;
            else if (WIFEXITED(status) && WEXITSTATUS(status) == EOWNERDEAD)
                found->left++;
            else
                found->stuck++;
            return;
        }
        usleep(1000);
    }
    end(writer);
    found->stuck++;
}

/* How many uses wait; each is of the row. */
static unsigned count_notes(struct found *found) {
    unsigned uses = 0;
    for (uint32_t i = 0; i < both->lanes.count; i++)
        for (uint32_t k = 0; k < both->lanes.lane[i].uses; k++, uses++)
            found->wrong += both->lanes.lane[i].rows[k] != ROW;
    return uses;
}

/* A reader's death after its first `steps` instructions, while a writer waits; false if the reader
 * ended before. */
static bool die_reading(long steps, struct found *found) {
    lanes_forget(&both->lanes);
    pid_t child = begin_stepped(read_once);
    bool is_death = step(child, steps) == STEPPED;
    pid_t writer = begin(write_and_exit, false);
    let_sleep(writer);
    if (is_death)
        end(child);
    find(found, writer);
    unsigned uses = count_notes(found);
    found->wrong += uses > 1 || (!is_death && uses != 1);
    return is_death;
}

/* A writer's death, while it waits for the lane of a reader that is stopped; the next writer waits
 * too. */
static bool die_waiting(long steps, struct found *found) {
    pid_t reader = begin(read_until_continued, false);
    wait_for_stop(reader, WUNTRACED);
    pid_t child = begin_stepped(write_once);
    int came = step(child, steps);
    bool is_death = came == STEPPED;
    end(child);
    pid_t writer = begin(write_and_exit, false);
    let_sleep(writer);
    found->wrong += !sleeps(writer);
    kill(reader, SIGCONT);
    waitpid(reader, NULL, 0);
    find(found, writer);
    return is_death;
}

/* The same of one that sleeps, and is killed when the lane's release has woken it. */
static bool die_woken(long steps, struct found *found) {
    pid_t reader = begin(read_until_continued, false);
    wait_for_stop(reader, WUNTRACED);
    pid_t child = begin_stepped(write_once);
    if (step(child, LONG_MAX) != SLEEPS)
        stop("the writer did not wait");
    kill(reader, SIGCONT);
    waitpid(reader, NULL, 0);
    wait_for_stop(child, 0);
    bool is_death = step(child, steps) == STEPPED;
    if (is_death)
        end(child);
    find(found, begin(write_and_exit, false));
    return is_death;
}

/* How many processes died in a call of the cache, and the hits of all its rows; every row has to
 * be there. */
static uint64_t look_at_rows(struct found *found, uint64_t *inside) {
    uint64_t hits = 0;
    uint8_t *at = shared_enter();
    *inside = shared_get_deaths().inside;
    for (int i = 0; i < ROWS; i++) {
        uint8_t key = key_of(i), text[16];
        cache_row row = cache_find_row(at, &key, 1, now);
        bool is_whole = row.place != 0 && row.value.kind == CACHE_STR &&
                        row.value.len == sizeof text &&
                        cache_copy(at, row.value.place, text, sizeof text);
        for (size_t k = 0; is_whole && k < sizeof text; k++)
            is_whole = text[k] == key;
        found->wrong += !is_whole;
        hits += row.hits;
    }
    found->wrong += cache_get_counts(at).entries != ROWS;
    shared_leave();
    return hits;
}

/* A death in a fetch. */
static bool die_fetching(long steps, struct found *found) {
    uint64_t inside, hits = look_at_rows(found, &inside), died_inside;
    pid_t child = begin_stepped(fetch_once);
    bool is_death = step(child, steps) == STEPPED;
    end(child);
    uint64_t more = look_at_rows(found, &died_inside) - hits;
    found->wrong += died_inside != inside || more > 1 || (!is_death && more != 1);
    found->given++;
    return is_death;
}

/* A death while it counts what others fetched. */
static bool die_counting(long steps, struct found *found) {
    enum { FETCHES = 12 };
    uint64_t inside, hits = look_at_rows(found, &inside), died_inside;
    for (int i = 0; i < FETCHES; i++) {
        uint8_t copy[16], key = key_of(i % ROWS);
        shared_fetch(&key, 1, now, copy, sizeof copy);
    }
    pid_t child = begin_stepped(fetch_later);
    bool is_death = step(child, steps) == STEPPED;
    end(child);
    now++;
    uint64_t more = look_at_rows(found, &died_inside) - hits;
    found->wrong +=
        died_inside != inside || more > FETCHES + 1 || (!is_death && more != FETCHES + 1);
    found->given++;
    return is_death;
}

/* A death after each step. The last child of all ended before. */
static bool find_all(const char *of, bool (*die)(long, struct found *)) {
    struct found found = {0};
    long steps = 0;
    while (die(steps, &found))
        steps++;
    printf("%s: %ld deaths; the next one got the lock %u times, with a death %u, and was stuck %u; "
           "%u wrong\n",
           of, steps, found.given, found.left, found.stuck, found.wrong);
    return found.stuck == 0 && found.wrong == 0 && found.given > 0;
}

static void fill_cache(void) {
    uint8_t *at = shared_enter();
    for (int i = 0; i < ROWS; i++) {
        uint8_t key = key_of(i), text[16];
        cache_request store = {.kind = CACHE_STORE, .value = CACHE_STR, .t = now};
        memset(text, key, sizeof text);
        cache_ask(at, &store, &key, 1, text, sizeof text);
    }
    shared_leave();
}

int main(void) {
    setvbuf(stdout, NULL, _IOLBF, 0);
    both = mmap(NULL, sizeof *both, PROT_READ | PROT_WRITE, MAP_SHARED | MAP_ANONYMOUS, -1, 0);
    if (both == MAP_FAILED || !robust_lock_make(&both->lock, true))
        stop("there is no lock");
    lanes_make(&both->lanes, &both->lock);
    if (both->lock.is_mutex) {
        puts("there are no lanes");
        return NO_STEPS;
    }
    bool is_good = find_all("reading", die_reading);
    is_good &= find_all("waiting", die_waiting);
    is_good &= find_all("woken", die_woken);
    cache_shape shape = {.words = 4096, .slots = SLOTS, .segments = 1};
    if (shared_start(&shape) != CACHE_MADE)
        stop("there is no cache");
    fill_cache();
    is_good &= find_all("fetching", die_fetching);
    is_good &= find_all("counting", die_counting);
    puts(is_good ? "as it should be" : "not as it should be");
    return is_good ? 0 : 1;
}
