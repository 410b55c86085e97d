/* SPDX-License-Identifier: MIT */
/* All interleavings of two readers and a writer over a model of lanes.h: the lock's word, two lanes
 * with their notes, the second of the notes, and the kernel, which marks the words of a process
 * that dies. A process makes one access to shared memory in a step, and may die before each of its
 * steps. The order of accesses is the program's: lanes.h asks for sequential consistency where that
 * matters.
 *
 * In each state that can be reached:
 * - no process reads while another one changes what it reads;
 * - each use that was noted waits, was counted once in its own second, or was lost with the cache
 * or with a process that died while it counted;
 * - all processes that live can reach their end, whatever happened before.
 *
 * With a number of a fault the model leaves out one of the rules, and has to find the consequence.
 * Usage: lanes_model [FAULT]. It prints how many states there are; 1 is its status if one is wrong.
 */
#include <stdbool.h>
#include <stdint.h>
#include <stdio.h>
#include <stdlib.h>
#include <string.h>

enum { LANES = 2, USES = 2, PROCESSES = 3, WRITER = 2, CALLS = 2 };

/* Words: 0 is free, 1 to PROCESSES is a process that has it. */
enum { DIED = PROCESSES + 1 };

/* What a call in progress does: it counts the uses of the lane BUSY_COUNT + i. */
enum { BUSY_NOT, BUSY_CHANGE, BUSY_COUNT };

/* What a process has in list_op_pending: nothing, the lock, or the lane PENDING_LANE + i. */
enum { PENDING_NONE, PENDING_LOCK, PENDING_LANE };

enum fault {
    NO_FAULT,
    READER_LOOKS_ONCE,    /* at the lock's word before it takes a lane, and not after */
    WRITER_LOOKS_FIRST,   /* at the lanes before it takes the lock, and not after */
    NOTE_AFTER_RELEASE,   /* a use is noted when the lane is released */
    ROW_AFTER_USE,        /* the number of uses is written before the row */
    ANY_SECOND,           /* a use of another second is noted with those that wait */
    NO_WAKE,              /* a lane is released, and the writer that sleeps is not woken */
    LANE_OF_DEAD_IS_KEPT, /* a writer waits for a lane whose owner died */
    COUNTED_AGAIN,        /* the uses that a dead process counted in part are counted once more */
    CHANGE_BEFORE_COUNT,  /* a writer changes rows, and counts no uses before */
    FAULTS
};
static enum fault fault;

enum step {
    START,
    LANE_PENDING,
    LANE_TAKE,
    LANE_LOOK,
    LANE_MAY_NOTE,
    READ_BEGIN,
    READ_END,
    NOTE_FIRST,
    NOTE_SECOND,
    LANE_RELEASE,
    LANE_WAKE,
    LANE_FORGET,
    LOCK_PENDING,
    LOCK_TAKE,
    LANES_WAIT,
    LANES_MARK,
    LANES_SLEEP,
    RECOVER,
    REMAKE_BEGIN,
    REMAKE_FORGET,
    REMAKE_END,
    FORGET_COUNTED,
    BUSY_END,
    COUNT_LANE,
    COUNT_BUSY,
    COUNT_USE,
    COUNT_CLEAR,
    COUNT_END,
    SET_SECOND,
    ALONE_BEGIN,
    ALONE_END,
    ALONE_FIRST,
    ALONE_SECOND,
    CHANGE_BUSY,
    CHANGE_BEGIN,
    CHANGE_END,
    UNLOCK,
    LOCK_FORGET,
    ENDED
};

/* Why a lane is released: the read is done, it is tried again, or the lock is taken for it. */
enum { DONE, AGAIN, LOCKED };

struct state {
    struct {
        uint8_t word, waiters, uses;
        uint8_t is_row[USES], second[USES]; /* what was noted, and is not counted yet */
    } lane[LANES];
    uint8_t lock, second, busy, is_half, version;
    uint8_t noted, counted, lost;
    struct {
        uint8_t step, calls, lane, why, seen, at, is_dead, is_told, is_asleep, pending;
    } process[PROCESSES];
};

static struct state *states;
static uint32_t *table, count, capacity, table_size;
static uint32_t (*edges)[2];
static size_t edge_count, edge_capacity;
static bool has_deaths, has_time_outs;
static const char *wrong;
static uint32_t from;

static void *more(void *at, size_t size) {
    void *grown = realloc(at, size);
    if (!grown) {
        fputs("no memory\n", stderr);
        exit(2);
    }
    return grown;
}

static uint64_t hash_of(const struct state *s) {
    const uint8_t *bytes = (const uint8_t *)s;
    uint64_t hash = 1469598103934665603u;
    for (size_t i = 0; i < sizeof *s; i++)
        hash = (hash ^ bytes[i]) * 1099511628211u;
    return hash ^ hash >> 29;
}

static void grow_table(void) {
    table_size = table_size ? 2 * table_size : 1 << 20;
    table = more(table, table_size * sizeof *table);
    memset(table, 0, table_size * sizeof *table);
    for (uint32_t i = 0; i < count; i++) {
        uint32_t at = (uint32_t)hash_of(&states[i]) & (table_size - 1);
        while (table[at])
            at = (at + 1) & (table_size - 1);
        table[at] = i + 1;
    }
}

/* The number of a state, which is new or not. */
static uint32_t number_of(const struct state *s) {
    if (2 * (count + 1) > table_size)
        grow_table();
    uint32_t at = (uint32_t)hash_of(s) & (table_size - 1);
    for (; table[at]; at = (at + 1) & (table_size - 1))
        if (memcmp(&states[table[at] - 1], s, sizeof *s) == 0)
            return table[at] - 1;
    if (count == capacity) {
        capacity = capacity ? 2 * capacity : 1 << 16;
        states = more(states, capacity * sizeof *states);
    }
    states[count] = *s;
    table[at] = ++count;
    return count - 1;
}

static void must(bool holds, const char *what) {
    if (!holds && !wrong)
        wrong = what;
}

static unsigned waiting(const struct state *s) {
    unsigned all = 0;
    for (int i = 0; i < LANES; i++)
        for (int k = 0; k < s->lane[i].uses; k++)
            all += s->lane[i].is_row[k];
    return all;
}

/* A state that follows the current one; deaths are not needed to reach an end. */
static void follow(const struct state *s, bool is_death) {
    must(s->noted == waiting(s) + s->counted + s->lost, "a use is lost, or counted twice");
    uint32_t to = number_of(s);
    if (is_death)
        return;
    if (edge_count == edge_capacity) {
        edge_capacity = edge_capacity ? 2 * edge_capacity : 1 << 20;
        edges = more(edges, edge_capacity * sizeof *edges);
    }
    edges[edge_count][0] = from;
    edges[edge_count++][1] = to;
}

static bool is_free(uint8_t word) {
    return word == 0 || (word == DIED && fault != LANE_OF_DEAD_IS_KEPT);
}

static void wake(struct state *s, int lane) {
    for (int p = 0; p < PROCESSES; p++)
        if (s->process[p].is_asleep && s->process[p].at == lane)
            s->process[p].is_asleep = 0;
}

static void forget_lane(struct state *s, int i) {
    for (int k = 0; k < USES; k++) {
        s->lost = (uint8_t)(s->lost + (k < s->lane[i].uses ? s->lane[i].is_row[k] : 0));
        s->lane[i].is_row[k] = s->lane[i].second[k] = 0;
    }
    s->lane[i].uses = 0;
}

/* What the second of a reader is: they differ. */
static uint8_t second_of(int p) { return (uint8_t)p; }

static void note_row(struct state *s, int p, int i) {
    int k = s->lane[i].uses < USES ? s->lane[i].uses : USES - 1;
    s->lane[i].is_row[k] = 1;
    s->lane[i].second[k] = second_of(p);
}

static void note_use(struct state *s, int i) {
    s->lane[i].uses++;
    s->noted++;
}

/* The steps of lanes_enter to lane_release. */
static bool step_in_lane(struct state s, int p) {
    uint8_t id = (uint8_t)(p + 1);
    int i = s.process[p].lane;
    uint8_t *step = &s.process[p].step;
    switch (*step) {
    case LANE_PENDING:
        s.process[p].pending = (uint8_t)(PENDING_LANE + i);
        *step = LANE_TAKE;
        break;
    case LANE_TAKE: {
        bool is_taken = is_free(s.lane[i].word);
        *step = !is_taken ? START : fault == READER_LOOKS_ONCE ? LANE_MAY_NOTE : LANE_LOOK;
        if (is_taken)
            s.lane[i].word = id;
        break;
    }
    case LANE_LOOK:
        s.process[p].why = AGAIN;
        *step = s.lock == 0 ? LANE_MAY_NOTE : LANE_RELEASE;
        break;
    case LANE_MAY_NOTE: {
        bool may = (s.second == second_of(p) || fault == ANY_SECOND) && s.lane[i].uses < USES;
        s.process[p].why = LOCKED;
        *step = may ? READ_BEGIN : LANE_RELEASE;
        break;
    }
    case READ_BEGIN:
        must(!s.is_half, "what is read is half a change");
        s.process[p].seen = s.version;
        *step = READ_END;
        break;
    case READ_END:
        must(!s.is_half && s.process[p].seen == s.version, "what is read changes");
        s.process[p].why = DONE;
        *step = fault == NOTE_AFTER_RELEASE ? LANE_RELEASE : NOTE_FIRST;
        break;
    case NOTE_FIRST:
        if (fault == ROW_AFTER_USE)
            s.lane[i].uses++;
        else
            note_row(&s, p, i);
        *step = NOTE_SECOND;
        break;
    case NOTE_SECOND:
        if (fault == ROW_AFTER_USE) {
            s.lane[i].uses--;
            note_row(&s, p, i);
        }
        note_use(&s, i);
        *step = fault == NOTE_AFTER_RELEASE ? LANE_FORGET : LANE_RELEASE;
        break;
    case LANE_RELEASE:
        s.lane[i].word = 0;
        *step = s.lane[i].waiters && fault != NO_WAKE                     ? LANE_WAKE
                : fault == NOTE_AFTER_RELEASE && s.process[p].why == DONE ? NOTE_FIRST
                                                                          : LANE_FORGET;
        s.lane[i].waiters = 0;
        break;
    case LANE_WAKE:
        wake(&s, i);
        *step = LANE_FORGET;
        break;
    case LANE_FORGET:
        s.process[p].pending = PENDING_NONE;
        if (s.process[p].why == DONE)
            s.process[p].calls--;
        *step = s.process[p].why == LOCKED ? LOCK_PENDING : START;
        s.process[p].why = s.process[p].seen = s.process[p].lane = 0;
        break;
    default:
        return false;
    }
    follow(&s, false);
    return true;
}

static void after_lanes(struct state *s, int p) {
    s->process[p].at = 0;
    s->process[p].step = s->process[p].is_told ? RECOVER : COUNT_LANE;
}

/* The steps from the lock that is taken to all uses that are counted. */
static bool step_with_lock(struct state s, int p) {
    uint8_t id = (uint8_t)(p + 1), *step = &s.process[p].step, *at = &s.process[p].at;
    switch (*step) {
    case LOCK_PENDING:
        s.process[p].pending = PENDING_LOCK;
        *step = LOCK_TAKE;
        break;
    case LOCK_TAKE:
        if (s.lock != 0 && s.lock != DIED)
            return true;
        s.process[p].is_told = s.lock == DIED;
        s.lock = id;
        *at = 0;
        *step = LANES_WAIT;
        if (fault == WRITER_LOOKS_FIRST)
            after_lanes(&s, p);
        break;
    case LANES_WAIT:
        if (*at == LANES) {
            after_lanes(&s, p);
            if (fault == WRITER_LOOKS_FIRST)
                *step = LOCK_PENDING;
        } else if (is_free(s.lane[*at].word)) {
            ++*at;
        } else {
            s.process[p].seen = s.lane[*at].word;
            *step = LANES_MARK;
        }
        break;
    case LANES_MARK:
        if (s.lane[*at].word == s.process[p].seen) {
            s.lane[*at].waiters = 1;
            *step = LANES_SLEEP;
        } else {
            s.process[p].seen = 0;
            *step = LANES_WAIT;
        }
        break;
    case LANES_SLEEP:
        s.process[p].is_asleep = s.lane[*at].word == s.process[p].seen && s.lane[*at].waiters;
        s.process[p].seen = 0;
        *step = LANES_WAIT;
        break;
    case RECOVER:
        s.process[p].is_told = 0;
        *step = s.busy == BUSY_CHANGE  ? REMAKE_BEGIN
                : s.busy >= BUSY_COUNT ? FORGET_COUNTED
                                       : COUNT_LANE;
        break;
    case REMAKE_BEGIN:
        must(s.process[WRITER].is_dead, "the cache is made empty, and no process died in a change");
        s.is_half = 1;
        *step = REMAKE_FORGET;
        break;
    case REMAKE_FORGET:
        forget_lane(&s, *at);
        *step = ++*at == LANES ? REMAKE_END : REMAKE_FORGET;
        break;
    case REMAKE_END:
        s.is_half = 0;
        s.version = (uint8_t)((s.version + 1) % 4);
        *step = BUSY_END;
        break;
    case FORGET_COUNTED:
        if (fault != COUNTED_AGAIN)
            forget_lane(&s, s.busy - BUSY_COUNT);
        *step = BUSY_END;
        break;
    case BUSY_END:
        s.busy = BUSY_NOT;
        *at = 0;
        *step = COUNT_LANE;
        break;
    case COUNT_LANE:
        if (*at == LANES || (p == WRITER && fault == CHANGE_BEFORE_COUNT)) {
            *at = 0;
            *step = p == WRITER ? CHANGE_BUSY : SET_SECOND;
        } else if (s.lane[*at].uses == 0) {
            ++*at;
        } else {
            *step = COUNT_BUSY;
        }
        break;
    case COUNT_BUSY:
        s.busy = (uint8_t)(BUSY_COUNT + *at);
        s.process[p].seen = 0;
        *step = COUNT_USE;
        break;
    case COUNT_USE: {
        uint8_t k = s.process[p].seen;
        must(s.lane[*at].is_row[k], "a use is counted that is not noted, or was counted before");
        must(s.lane[*at].second[k] == s.second, "a use is counted in another second");
        s.lane[*at].is_row[k] = s.lane[*at].second[k] = 0;
        s.counted++;
        *step = ++s.process[p].seen == s.lane[*at].uses ? COUNT_CLEAR : COUNT_USE;
        break;
    }
    case COUNT_CLEAR:
        s.lane[*at].uses = 0;
        s.process[p].seen = 0;
        *step = COUNT_END;
        break;
    case COUNT_END:
        s.busy = BUSY_NOT;
        ++*at;
        *step = COUNT_LANE;
        break;
    default:
        return false;
    }
    follow(&s, false);
    return true;
}

/* What is done with the lock, and how it is released. */
static void step_inside(struct state s, int p) {
    uint8_t *step = &s.process[p].step;
    switch (*step) {
    case SET_SECOND:
        s.second = second_of(p);
        *step = ALONE_BEGIN;
        break;
    case ALONE_BEGIN:
        must(!s.is_half, "what is read is half a change");
        s.process[p].seen = s.version;
        *step = ALONE_END;
        break;
    case ALONE_END:
        must(!s.is_half && s.process[p].seen == s.version, "what is read changes");
        s.process[p].seen = 0;
        *step = ALONE_FIRST;
        break;
    case ALONE_FIRST:
        note_row(&s, p, 0);
        *step = ALONE_SECOND;
        break;
    case ALONE_SECOND:
        note_use(&s, 0);
        *step = UNLOCK;
        break;
    case CHANGE_BUSY:
        s.busy = BUSY_CHANGE;
        *step = CHANGE_BEGIN;
        break;
    case CHANGE_BEGIN:
        must(waiting(&s) == 0, "a row may go while a use of it waits");
        s.is_half = 1;
        *step = CHANGE_END;
        break;
    case CHANGE_END:
        /* both writes are the change's last */
        s.is_half = 0;
        s.version = (uint8_t)((s.version + 1) % 4);
        s.busy = BUSY_NOT;
        *step = UNLOCK;
        break;
    case UNLOCK:
        s.lock = 0;
        *step = LOCK_FORGET;
        break;
    case LOCK_FORGET:
        s.process[p].pending = PENDING_NONE;
        s.process[p].calls--;
        *step = START;
        break;
    default:
        return;
    }
    follow(&s, false);
}

static void start(struct state s, int p) {
    uint8_t *step = &s.process[p].step;
    if (s.process[p].calls == 0) {
        *step = ENDED;
        follow(&s, false);
    } else if (p == WRITER) {
        *step = fault == WRITER_LOOKS_FIRST ? LANES_WAIT : LOCK_PENDING;
        follow(&s, false);
    } else if (s.lock != 0) {
        /* it looked often enough */
        *step = LOCK_PENDING;
        follow(&s, false);
    } else {
        *step = LANE_PENDING;
        for (uint8_t i = 0; i < LANES; i++) {
            s.process[p].lane = i;
            follow(&s, false);
        }
    }
}

/* What the kernel does when a process ends. */
static void die(struct state s, int p) {
    uint8_t id = (uint8_t)(p + 1), pending = s.process[p].pending;
    if (pending == PENDING_LOCK && s.lock == id) {
        s.lock = DIED;
    } else if (pending >= PENDING_LANE) {
        int i = pending - PENDING_LANE;
        bool is_own = s.lane[i].word == id;
        if (is_own)
            s.lane[i].word = DIED;
        if (is_own ? s.lane[i].waiters : s.lane[i].word == 0 && !s.lane[i].waiters)
            wake(&s, i);
    }
    memset(&s.process[p], 0, sizeof s.process[p]);
    s.process[p].is_dead = 1;
    follow(&s, true);
}

static bool is_at_end(const struct state *s) {
    for (int p = 0; p < PROCESSES; p++)
        if (!s->process[p].is_dead && s->process[p].step != ENDED)
            return false;
    return true;
}

static void look_at(struct state s) {
    for (int p = 0; p < PROCESSES; p++) {
        if (s.process[p].is_dead || s.process[p].step == ENDED)
            continue;
        if (has_deaths)
            die(s, p);
        if (s.process[p].is_asleep) {
            if (has_time_outs) {
                struct state woken = s;
                woken.process[p].is_asleep = 0;
                follow(&woken, false);
            }
        } else if (s.process[p].step == START) {
            start(s, p);
        } else if (!step_in_lane(s, p) && !step_with_lock(s, p)) {
            step_inside(s, p);
        }
    }
}

/* Whether an end can be reached from each state: back from the ends. */
static bool all_can_end(void) {
    uint32_t *first = calloc(count + 1, sizeof *first),
             *order = more(NULL, (edge_count + 1) * sizeof *order);
    uint32_t *queue = more(NULL, (count + 1) * sizeof *queue), queued = 0;
    bool *can = calloc(count + 1, sizeof *can);
    if (!first || !can)
        more(NULL, SIZE_MAX);
    for (size_t e = 0; e < edge_count; e++)
        first[edges[e][1] + 1]++;
    for (uint32_t i = 0; i < count; i++)
        first[i + 1] += first[i];
    uint32_t *next = more(NULL, (count + 1) * sizeof *next);
    memcpy(next, first, count * sizeof *next);
    for (size_t e = 0; e < edge_count; e++)
        order[next[edges[e][1]]++] = edges[e][0];
    for (uint32_t i = 0; i < count; i++)
        if (is_at_end(&states[i])) {
            can[i] = true;
            queue[queued++] = i;
        }
    for (uint32_t at = 0; at < queued; at++)
        for (uint32_t e = first[queue[at]]; e < first[queue[at] + 1]; e++)
            if (!can[order[e]]) {
                can[order[e]] = true;
                queue[queued++] = order[e];
            }
    free(first);
    free(order);
    free(queue);
    free(next);
    free(can);
    return queued == count;
}

static bool explore(const char *name) {
    struct state begin = {0};
    for (int p = 0; p < PROCESSES; p++)
        begin.process[p].calls = CALLS;
    count = 0;
    edge_count = 0;
    wrong = NULL;
    if (table)
        memset(table, 0, table_size * sizeof *table);
    number_of(&begin);
    for (from = 0; from < count && !wrong; from++)
        look_at(states[from]);
    if (!wrong && !all_can_end())
        wrong = "a process waits for ever";
    printf("%s: %u states, %zu steps: %s\n", name, count, edge_count,
           wrong ? wrong : "as it should be");
    return !wrong;
}

int main(int argc, char **argv) {
    fault = argc > 1 ? (enum fault)strtoul(argv[1], NULL, 10) : NO_FAULT;
    if (fault >= FAULTS) {
        fprintf(stderr, "lanes_model: there are faults 1 to %d\n", FAULTS - 1);
        return 2;
    }
    bool is_good = explore("no process dies, and none that sleeps looks again");
    has_deaths = has_time_outs = true;
    is_good &= explore("each process may die at each step");
    return !is_good;
}
