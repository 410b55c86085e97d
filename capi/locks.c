/* SPDX-License-Identifier: MIT */
/* Deaths at a lock and at a mark. A child is stepped, and killed after its first instruction, its
 * second, and so on, while it takes a free lock, while it releases one for which another one sleeps,
 * and after it was woken: if the lock is free, and if another process has taken it meanwhile. Each
 * time another one that waits has to get the lock within three seconds. The lock is a short one, and
 * then a long one. The same while it takes a mark under the lock and releases it later: the next one
 * finds no owner.
 * Usage: locks. Ends with status 77 if processes may not be stepped. */
#define _GNU_SOURCE
/* Each look is stepped through. */
#define ROBUST_LOCK_LOOKS 2
#include "robust_lock.h"

#include <limits.h>
#include <signal.h>
#include <stdio.h>
#include <stdlib.h>
#include <sys/mman.h>
#include <sys/ptrace.h>
#include <sys/wait.h>
#include <unistd.h>

enum { NO_STEPS = 77 };

static robust_lock *lock;
static robust_mark *mark;
static volatile bool *is_taking; /* the mark, by the owner of the lock */

static void stop(const char *why) {
    puts(why);
    exit(1);
}

/* What children do. Those that are stepped stop themselves before. */
static void take_only(void) {
    raise(SIGSTOP);
    robust_lock_take(lock);
}

static void give_only(void) {
    robust_lock_take(lock);
    raise(SIGSTOP);
    robust_lock_give(lock);
}

static void set_taking(bool is) {
    atomic_signal_fence(memory_order_seq_cst);
    *is_taking = is;
    atomic_signal_fence(memory_order_seq_cst);
}

static void mark_only(void) {
    raise(SIGSTOP);
    robust_lock_take(lock);
    set_taking(true);
    robust_mark_take(mark, lock);
    set_taking(false);
    robust_lock_give(lock);
    robust_mark_release(mark, lock);
}

/* Its status is the result of taking the lock, or 1 if the mark has an owner. */
static void take_and_look(void) {
    int taken = robust_lock_take(lock);
    if (taken == EOWNERDEAD && *is_taking)
        robust_mark_reset(mark, lock);
    *is_taking = false;
    bool is_owned = robust_mark_is_owned(mark, lock);
    robust_lock_give(lock);
    _exit(is_owned ? 1 : taken);
}

/* It ends with the result. */
static void take_and_give(void) {
    int taken = robust_lock_take(lock);
    robust_lock_give(lock);
    _exit(taken);
}

static pid_t begin(void (*work)(void), bool is_stepped) {
    pid_t child = fork();
    if (child < 0)
        stop("no fork");
    if (child == 0) {
        if (is_stepped && ptrace(PTRACE_TRACEME, 0, NULL, NULL) != 0)
            _exit(NO_STEPS);
        work();
        _exit(0);
    }
    return child;
}

static pid_t begin_stepped(void (*work)(void)) {
    int status;
    pid_t child = begin(work, true);
    if (waitpid(child, &status, 0) != child || !WIFSTOPPED(status) ||
        ptrace(PTRACE_SETOPTIONS, child, NULL, PTRACE_O_EXITKILL) != 0) {
        puts("no process may be stepped here");
        exit(NO_STEPS);
    }
    return child;
}

static bool sleeps(pid_t process) {
    char path[40], state = 0;
    snprintf(path, sizeof path, "/proc/%d/stat", (int)process);
    FILE *told = fopen(path, "r");
    bool is_told = told && fscanf(told, "%*d %*s %c", &state) == 1;
    if (told)
        fclose(told);
    return is_told && state == 'S';
}

/* Waits until a process sleeps for the lock. */
static void let_sleep(pid_t process) {
    for (int i = 0; i < 30000 && !sleeps(process); i++)
        usleep(100);
}

/* The result of a step: it was made, the child ended, or it sleeps within the step. */
enum { STEPPED, ENDED, SLEEPS };

static int wait_for_step(pid_t child, bool may_sleep) {
    int status;
    for (;;) {
        pid_t told = waitpid(child, &status, may_sleep ? WNOHANG : 0);
        if (told == child)
            return WIFSTOPPED(status) ? STEPPED : ENDED;
        if (sleeps(child))
            return SLEEPS;
    }
}

/* This many steps, or fewer if the child ends or sleeps before. */
static int step(pid_t child, long steps, bool may_sleep) {
    int came = STEPPED;
    for (long i = 0; i < steps && came == STEPPED; i++) {
        ptrace(PTRACE_SINGLESTEP, child, NULL, NULL);
        came = wait_for_step(child, may_sleep);
    }
    return came;
}

static void end(pid_t child) {
    kill(child, SIGKILL);
    waitpid(child, NULL, 0);
}

/* How often one that waited got the lock, learned that its owner died, or got no result. */
struct found {
    unsigned given, left, stuck;
};

/* The result of a process that takes the lock, within three seconds. */
static void find(struct found *found, pid_t waiter) {
    for (int i = 0; i < 3000; i++) {
        int status;
        if (waitpid(waiter, &status, WNOHANG) == waiter) {
            if (WIFEXITED(status) && WEXITSTATUS(status) == 0)
                found->given++;
            else if (WIFEXITED(status) && WEXITSTATUS(status) == EOWNERDEAD)
                found->left++;
            else
                found->stuck++;
            return;
        }
        usleep(1000);
    }
    end(waiter);
    found->stuck++;
}

/* A death in taking a free lock, after this many steps; false if it ended before. */
static bool die_taking(long steps, struct found *found) {
    pid_t child = begin_stepped(take_only);
    bool is_death = step(child, steps, false) == STEPPED;
    if (is_death)
        end(child);
    find(found, begin(take_and_give, false));
    return is_death;
}

/* In taking the lock and a mark, and in releasing both. */
static bool die_marking(long steps, struct found *found) {
    pid_t child = begin_stepped(mark_only);
    bool is_death = step(child, steps, false) == STEPPED;
    if (is_death)
        end(child);
    find(found, begin(take_and_look, false));
    return is_death;
}

/* In releasing it, while another one sleeps for it. */
static bool die_giving(long steps, struct found *found) {
    pid_t child = begin_stepped(give_only), waiter = begin(take_and_give, false);
    let_sleep(waiter);
    bool is_death = step(child, steps, false) == STEPPED;
    if (is_death)
        end(child);
    find(found, waiter);
    return is_death;
}

/* When it was woken, before another one that sleeps. If a process takes the lock meanwhile, it
 * sleeps again, and dies then. */
static bool die_woken(long steps, struct found *found, bool is_taken) {
    robust_lock_take(lock);
    pid_t child = begin_stepped(take_only);
    if (step(child, LONG_MAX, true) != SLEEPS)
        stop("it did not wait");
    pid_t waiter = begin(take_and_give, false);
    let_sleep(waiter);
    robust_lock_give(lock);
    if (is_taken)
        robust_lock_take(lock);
    bool is_death = wait_for_step(child, false) == STEPPED && step(child, steps, true) == STEPPED;
    if (is_death || is_taken)
        end(child);
    if (is_taken)
        robust_lock_give(lock);
    find(found, waiter);
    return is_death;
}

static bool die_woken_first(long steps, struct found *found) {
    return die_woken(steps, found, false);
}

static bool die_woken_late(long steps, struct found *found) {
    return die_woken(steps, found, true);
}

/* A death after each step. The last child of all ended before. */
static bool find_all(const char *of, bool (*die)(long, struct found *)) {
    struct found found = {0};
    long steps = 0;
    while (die(steps, &found))
        steps++;
    printf("%s: %ld deaths; the next one got the lock %u times, learned of a death %u, and was "
           "stuck %u\n",
           of, steps, found.given, found.left, found.stuck);
    return found.stuck == 0 && found.given > 0 && (found.left > 0 || die == die_woken_late);
}

int main(void) {
    struct {
        robust_lock lock;
        robust_mark mark;
        volatile bool is_taking;
    } *shared = mmap(NULL, sizeof *shared, PROT_READ | PROT_WRITE, MAP_SHARED | MAP_ANONYMOUS, -1, 0);
    bool is_good = shared != MAP_FAILED;
    lock = &shared->lock;
    mark = &shared->mark;
    is_taking = &shared->is_taking;
    for (int is_short = 1; is_good && is_short >= 0; is_short--) {
        if (!robust_lock_make(lock, is_short) || !robust_mark_make(mark, lock))
            stop("there is no lock");
        puts(is_short ? "a short lock" : "a long lock");
        is_good &= find_all("taking", die_taking);
        is_good &= find_all("giving", die_giving);
        is_good &= find_all("marking", die_marking);
        is_good &= find_all("woken", die_woken_first);
        is_good &= find_all("woken late", die_woken_late);
    }
    puts(is_good ? "as it should be" : "not as it should be");
    return is_good ? 0 : 1;
}
