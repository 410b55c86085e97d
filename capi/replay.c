/* SPDX-License-Identifier: MIT */
/* apcu_replay: plays a record of the extension for PHP on a cache of the library, which is proved. This
 * program, which reads the record and compares the answers, is C: it is tested, not proved.
 *
 * A record is read as a stream, so it may have any length, and come from a pipe. Of its bytes only one
 * event is in memory at a time. */
#define _GNU_SOURCE
#include "record_file.h"

#include <errno.h>
#include <fcntl.h>
#include <getopt.h>
#include <inttypes.h>
#include <signal.h>
#include <stdarg.h>
#include <stdio.h>
#include <stdlib.h>
#include <string.h>
#include <sys/mman.h>
#include <sys/stat.h>
#include <time.h>
#include <unistd.h>

enum { RIGHT = 0, NOTHING = 1, IN_PART = 2, WRONG = 9 };

/* What is done for each event. */
#define ALWAYS_INLINE inline __attribute__((always_inline))
#define EXPECTED(is) __builtin_expect((is), true)

enum {
    READ_BYTES = 1 << 20,
    MOST_PROCESSES = 1 << 22, /* as many numbers as Linux has */
    LOOK_EACH = 1 << 14       /* events between two looks at the clock */
};

static const char usage[] =
    "usage: apcu_replay [OPTION].. RECORD\n"
    "Judges a record that the extension for PHP wrote with apc.record_dir: whether each reply is the\n"
    "one of a cache that gets the calls in their order. RECORD may be - for the standard input.\n"
    "\n"
    "  --print         print the calls and their replies as text, in place of a verdict\n"
    "  --play          print what a cache of another shape comes to, in place of a verdict\n"
    "    --shm-size N    bytes of its memory, up to 2G; with K, M or G behind it\n"
    "    --slots N       slots that keys are spread over\n"
    "    --ttl N         seconds after which an unused row is stale\n"
    "    --map           print its blocks and gaps, too\n"
    "  --help          print this\n"
    "\n"
    "Status 0: each reply is right, or it was played. 9: one is wrong, and it is shown. 2: each reply\n"
    "that was judged is right, but the record is damaged or the program was interrupted. 1: nothing was\n"
    "judged.\n";

__attribute__((format(printf, 1, 2), noreturn)) static void give_up(const char *format, ...) {
    va_list words;
    va_start(words, format);
    fputs("apcu_replay: ", stderr);
    vfprintf(stderr, format, words);
    fputc('\n', stderr);
    va_end(words);
    exit(NOTHING);
}

/* The memory of the cache. What cache_new allocates is in one mapping, so that an empty cache can
 * replace another one. */

static unsigned char *room;
static size_t room_size, room_used;
static bool is_making;

/* Those of the cache, and how many bytes they have. They are 0 when the cache gets them. */
static uint64_t *cache_words;
static size_t words_size;

static cache_tried got(void *at) {
    static char nothing;
    return (cache_tried){at != NULL, at ? at : &nothing};
}

static bool is_in_room(const void *at) {
    return room && (uintptr_t)at >= (uintptr_t)room && (uintptr_t)at < (uintptr_t)room + room_size;
}

static void *take(size_t n) {
    size_t from = (room_used + 63) / 64 * 64;
    if (from > room_size || n > room_size - from)
        return NULL;
    room_used = from + n;
    return room + from;
}

cache_tried rattle_alloc(size_t n, size_t align) {
    (void)align; /* at most 16 */
    if (!is_making)
        return got(malloc(n ? n : 1));
    void *at = take(n);
    if (!cache_words && n == words_size)
        cache_words = at;
    return got(at);
}

cache_tried rattle_realloc(void *at, size_t kept, size_t n, size_t align) {
    if (!is_in_room(at))
        return got(realloc(at, n ? n : 1));
    cache_tried more = rattle_alloc(n, align);
    if (more.ok)
        memcpy(more.at, at, kept < n ? kept : n);
    return more;
}

void rattle_dealloc(void *at) {
    if (!is_in_room(at))
        free(at);
}

int rattle_errno(void) { return errno; }

/* A cache that is asked, and the look-ups that it has not counted yet: it answers them without a
 * change, and counts them before any other call, or before one of another second. */
enum { MOST_USES = 256 };

typedef struct {
    uint8_t *handle;
    struct cache_view view;
    uint64_t t, misses;
    size_t uses;
    uint32_t rows[MOST_USES];
} player;

static void make_cache(player *p, const cache_shape *shape) {
    if (!room) {
        /* A word has 8 bytes, and the index some more than one for each. */
        room_size = cache_size() + 10 * (size_t)shape->words + 65536;
        void *at = mmap(NULL, room_size, PROT_READ | PROT_WRITE,
                        MAP_PRIVATE | MAP_ANONYMOUS | MAP_NORESERVE, -1, 0);
        if (at == MAP_FAILED)
            give_up("there are no %zu bytes of memory for the cache", room_size);
        room = at;
#ifdef MADV_HUGEPAGE
        madvise(room, room_size, MADV_HUGEPAGE);
#endif
    } else {
        madvise(room, room_size, MADV_DONTNEED);
    }
    room_used = 0;
    cache_words = NULL;
    words_size = 8 * (size_t)shape->words;
    p->handle = take(cache_size());
    is_making = true;
    uint32_t made = cache_new(shape, p->handle);
    is_making = false;
    if (made != CACHE_MADE || !cache_words)
        give_up("no cache has %zu bytes and %u slots", words_size, shape->slots);
    p->t = p->misses = p->uses = 0;
    cache_get_view(p->handle, &p->view);
}

static void count_uses(player *p) {
    if (p->uses == 0 && p->misses == 0)
        return;
    cache_count(p->handle, p->rows, p->uses, p->misses, p->t);
    cache_get_view(p->handle, &p->view);
    p->uses = 0;
    p->misses = 0;
}

/* The record as a stream. */

static volatile sig_atomic_t is_interrupted;

static void interrupt(int number) {
    (void)number;
    is_interrupted = 1;
}

typedef struct {
    const char *path;
    int file;
    uint8_t *bytes;
    size_t size, from, to; /* bytes[from] up to bytes[to] were read and are not used yet */
    uint64_t at;           /* the place of bytes[from] in the file */
    uint64_t length;       /* of the file; 0: not known */
    cache_shape shape;
    bool has_values;
    uint64_t events; /* that were read */
} source;

/* Reads until the next n bytes are there. Memory grows with what was read, not with what is asked for. */
__attribute__((noinline)) static bool read_more(source *in, size_t n) {
    while (in->to - in->from < n) {
        if (in->from > 0) {
            memmove(in->bytes, in->bytes + in->from, in->to - in->from);
            in->to -= in->from;
            in->from = 0;
        }
        if (in->to == in->size) {
            in->size = in->size ? 2 * in->size : READ_BYTES;
            in->bytes = realloc(in->bytes, in->size);
            if (!in->bytes)
                give_up("there is no memory for an event of more than %zu bytes", in->size / 2);
        }
        ssize_t got = read(in->file, in->bytes + in->to, in->size - in->to);
        if (got < 0 && errno != EINTR)
            give_up("%s: %s", in->path, strerror(errno));
        if (got == 0 || is_interrupted)
            return false;
        in->to += got > 0 ? (size_t)got : 0;
    }
    return true;
}

static ALWAYS_INLINE bool have(source *in, size_t n) {
    return EXPECTED(in->to - in->from >= n) || read_more(in, n);
}

static ALWAYS_INLINE void use(source *in, size_t n) {
    in->from += n;
    in->at += n;
}

static void open_record(source *in, const char *path) {
    struct stat is;
    *in = (source){.path = path, .file = 0};
    if (strcmp(path, "-") != 0 && (in->file = open(path, O_RDONLY | O_CLOEXEC)) < 0)
        give_up("%s: %s", path, strerror(errno));
    if (fstat(in->file, &is) == 0 && S_ISDIR(is.st_mode))
        give_up("%s: %s", path, strerror(EISDIR));
    if (S_ISREG(is.st_mode))
        in->length = (uint64_t)is.st_size;

    /* The bytes of the first event may be white space, which a format of sscanf skips: so the head is
     * cut off at its empty line first. */
    char head[RECORD_HEAD + 1] = "";
    have(in, RECORD_HEAD);
    size_t n = in->to - in->from < RECORD_HEAD ? in->to - in->from : RECORD_HEAD;
    uint64_t size = 0;
    unsigned values = 2;
    int end = 0;
    if (n > 0)
        memcpy(head, in->bytes, n);
    if (strncmp(head, RECORD_NAME, strlen(RECORD_NAME)) != 0)
        give_up("%s: it does not begin as a record", path);
    char *empty_line = strstr(head, "\n\n");
    if (empty_line) {
        empty_line[1] = 0;
        sscanf(head, RECORD_NAME "server %*16[0-9a-f]\nshm-size %" SCNu64 "\nslots %u\nttl %u\nvalues %u%n",
               &size, &in->shape.slots, &in->shape.ttl, &values, &end);
    }
    if (!empty_line || head + end != empty_line || values > 1 || size / 8 > UINT32_MAX)
        give_up("%s: its head is not that of a record", path);
    in->shape.words = (uint32_t)(size / 8);
    in->shape.segments = 1;
    in->has_values = values == 1;
    use(in, (size_t)end + 2);
}

/* An event with its bytes, which are valid until the next one is read. */
typedef struct {
    record_event is;
    uint64_t number;
    const uint8_t *key, *text; /* text is null if the record has lengths alone */
    size_t text_len;           /* of a string that is stored or answered; else 0 */
} event;

static ALWAYS_INLINE uint64_t text_len_of(const record_event *e) {
    return record_stores_text(e) ? e->number : record_answers_text(e) ? e->answer : 0;
}

static ALWAYS_INLINE const char *fault_of(const source *in, const record_event *e) {
    if ((e->kind > CACHE_CLEAR && e->kind != RECORD_REMADE) || e->zero != 0 ||
        e->value > CACHE_STR || e->reply > CACHE_NO_NUMBER)
        return "is no event";
    if (e->event != (uint32_t)in->events)
        return "is no event of the next number";
    if (e->process >= MOST_PROCESSES)
        return "is an event of no process";
    if (text_len_of(e) / 8 > in->shape.words)
        return "is an event with more bytes than the cache has";
    return NULL;
}

/* False at the end, with a message if the record is damaged there. */
static ALWAYS_INLINE bool next_event(source *in, event *e, const char **fault) {
    *fault = NULL;
    if (!have(in, sizeof e->is)) {
        *fault = in->to > in->from && !is_interrupted ? "the record ends within an event" : NULL;
        return false;
    }
    memcpy(&e->is, in->bytes + in->from, sizeof e->is);
    if ((*fault = fault_of(in, &e->is)) != NULL)
        return false;
    e->text_len = (size_t)text_len_of(&e->is);
    size_t bytes = sizeof e->is + e->is.key_len + (in->has_values ? e->text_len : 0);
    if (!have(in, bytes)) {
        *fault = is_interrupted ? NULL : "the record ends within an event";
        return false;
    }
    e->number = in->events++;
    e->key = in->bytes + in->from + sizeof e->is;
    e->text = in->has_values ? e->key + e->is.key_len : NULL;
    use(in, bytes);
    return true;
}

/* Calling the cache. */

/* As many bytes as a string of the record may have, for those of which only the length is known. Pages
 * that no call reads take no memory. */
static const uint8_t *zeros;

static ALWAYS_INLINE cache_answer look(player *p, const event *e, uint64_t hash) {
    struct cache_found found;
    if (p->t != e->is.t || p->uses == MOST_USES) {
        count_uses(p);
        p->t = e->is.t;
    }
    cache_find_shared(&p->view, cache_words, p->view.len, e->key, e->is.key_len, hash, e->is.t,
                      &found);
    if (found.row != 0)
        p->rows[p->uses++] = found.row;
    else
        p->misses++;
    return (cache_answer){found.kind, found.place, found.number, found.len};
}

static ALWAYS_INLINE cache_answer ask(player *p, const event *e) {
    uint64_t hash = cache_hash(e->key, e->is.key_len);
    if (e->is.kind == CACHE_LOOK)
        return look(p, e, hash);

    bool is_text = record_stores_text(&e->is);
    bool is_swap = e->is.kind == CACHE_SWAP;
    cache_request request = {.kind = e->is.kind,
                             .value = e->is.value,
                             .ttl = is_swap ? 0 : (uint32_t)e->is.set,
                             .t = e->is.t,
                             .number = is_text ? 0 : e->is.number,
                             .set = is_swap ? e->is.set : 0,
                             .hash = hash};
    count_uses(p);
    cache_answer answer = cache_ask_hashed(p->handle, &request, e->key, e->is.key_len,
                                           e->text ? e->text : zeros, is_text ? e->text_len : 0);
    cache_get_view(p->handle, &p->view);
    return answer;
}

/* The bytes of a string that was answered: they are read where they lie, since no call is under way. */
static const uint8_t *answered(const cache_answer *answer) {
    return (const uint8_t *)(cache_words + answer->place);
}

static ALWAYS_INLINE bool is_due(const event *e, const cache_answer *due) {
    if (due->kind != e->is.reply)
        return false;
    switch (due->kind) {
    case CACHE_BOOL:
    case CACHE_INT:
        return (uint64_t)due->number == e->is.answer;
    case CACHE_STR:
        return due->len == e->is.answer &&
               (!e->text || memcmp(answered(due), e->text, e->text_len) == 0);
    default:
        return true;
    }
}

/* Events as text, in the words of apcu_run's scripts. */

static void print_text(FILE *out, const uint8_t *bytes, uint64_t len) {
    if (bytes) {
        fprintf(out, "s:%" PRIu64 ":\"", len);
        fwrite(bytes, 1, (size_t)len, out);
        fputs("\";", out);
    } else {
        fprintf(out, "x:%" PRIu64 ";", len);
    }
}

static void print_value(FILE *out, uint32_t kind, uint64_t number, const uint8_t *bytes,
                        uint64_t len) {
    switch (kind) {
    case CACHE_NULL:
        fputs("N;", out);
        return;
    case CACHE_BOOL:
        fputs(number ? "b:1;" : "b:0;", out);
        return;
    case CACHE_INT:
        fprintf(out, "i:%" PRId64 ";", (int64_t)number);
        return;
    default:
        print_text(out, bytes, len);
    }
}

static void print_call(FILE *out, const event *e) {
    static const char *const words[] = {"apcu_store",  "apcu_add", "apcu_fetch", "apcu_exists",
                                        "apcu_delete", "apcu_inc", "apcu_cas",   "apcu_clear_cache"};
    uint8_t kind = e->is.kind;
    bool is_store = kind == CACHE_STORE || kind == CACHE_ADD;
    fputs(words[kind], out);
    if (kind != CACHE_CLEAR) {
        fputc(' ', out);
        print_text(out, e->key, e->is.key_len);
    }
    if (is_store) {
        fputc(' ', out);
        print_value(out, e->is.value, e->is.number, e->text, e->is.number);
    }
    if (kind == CACHE_COUNT || kind == CACHE_SWAP)
        fprintf(out, " i:%" PRId64 ";", (int64_t)e->is.number);
    if (kind == CACHE_SWAP || ((is_store || kind == CACHE_COUNT) && e->is.set != 0))
        fprintf(out, " i:%" PRId64 ";", (int64_t)e->is.set);
    fputc('\n', out);
}

static void print_reply(FILE *out, uint32_t call, uint32_t kind, uint64_t number,
                        const uint8_t *bytes) {
    if (call != CACHE_LOOK && call != CACHE_COUNT) {
        fputs(kind == CACHE_YES ? "b:1;\n" : "b:0;\n", out);
    } else if (kind > CACHE_STR) {
        fputs("b:0;b:0;\n", out);
    } else {
        print_value(out, kind, number, bytes, number);
        fputs("b:1;\n", out);
    }
}

static int print_record(source *in) {
    event e;
    const char *fault;
    uint64_t part = 0, first = 0, t = 0;
    uint32_t process = 0;
    bool is_new = true;
    while (next_event(in, &e, &fault)) {
        if (e.is.kind == RECORD_REMADE) {
            part++;
            first = in->events;
            is_new = true;
            continue;
        }
        if (is_new)
            printf("part %" PRIu64 "\n", part);
        if (is_new || e.is.process != process)
            printf("process %u\n", process = e.is.process);
        if (is_new || e.is.t != t) {
            t = e.is.t;
            printf("time i:%" PRId64 ";\n", (int64_t)t);
        }
        is_new = false;
        printf("%" PRIu64 " ", e.number - first);
        print_call(stdout, &e);
        print_reply(stdout, e.is.kind, e.is.reply, e.is.answer, e.text);
    }
    if (fflush(stdout) != 0 || ferror(stdout))
        give_up("the output: %s", strerror(errno));
    if (fault)
        fprintf(stderr, "%s: byte %" PRIu64 ": %s; what comes from there on is left out\n", in->path,
                in->at, fault);
    return fault || is_interrupted ? IN_PART : RIGHT;
}

/* A text for messages, shortened. */
static void show(const char *name, const char *text, size_t len) {
    static const char letters[] = "abtnvfr";
    size_t most = len <= 160 ? len : 140;
    printf("  %s ", name);
    for (size_t i = 0; i < most; i++) {
        unsigned char byte = (unsigned char)text[i];
        if (byte >= 7 && byte <= 13)
            printf("\\%c", letters[byte - 7]);
        else if (byte < 32 || byte >= 127)
            printf("\\%03o", byte);
        else
            putchar(byte);
    }
    if (most < len)
        printf(" .. (%zu bytes)", len);
    putchar('\n');
}

/* A number with commas; one of six buffers in turn. */
static const char *shown(uint64_t number) {
    static char texts[6][32];
    static unsigned turn;
    char digits[24];
    char *text = texts[turn++ % 6], *to = text;
    int len = snprintf(digits, sizeof digits, "%" PRIu64, number);
    for (int i = 0; i < len; i++) {
        if (i > 0 && (len - i) % 3 == 0)
            *to++ = ',';
        *to++ = digits[i];
    }
    *to = 0;
    return text;
}

static const char *plural(uint64_t count, const char *one, const char *many) {
    return count == 1 ? one : many;
}

/* How far the record reaches. */
typedef struct {
    uint64_t first, last; /* seconds; 0: none yet */
    uint64_t processes, remade;
    uint8_t seen[MOST_PROCESSES / 8];
} extent;

static void reach(extent *all, const event *e) {
    uint8_t bit = (uint8_t)(1 << e->is.process % 8), *seen = &all->seen[e->is.process / 8];
    all->processes += !(*seen & bit);
    *seen |= bit;
    /* A deletion has the second 0, and a row that expires at once a second that has passed. */
    if (e->is.t != 0) {
        all->first = all->first ? all->first : e->is.t;
        all->last = e->is.t > all->last ? e->is.t : all->last;
    }
}

static uint64_t seconds(const extent *all) {
    return all->first == 0 ? 0 : all->last - all->first + 1;
}

/* A line of progress, at a terminal. */
static void tell_progress(const source *in, bool is_done) {
    static time_t last;
    static bool is_told;
    time_t now = time(NULL);
    if (!isatty(2) || (is_done && !is_told))
        return;
    last = last ? last : now;
    if (is_done) {
        fputs("\r\033[K", stderr);
    } else if (now > last) {
        last = now;
        is_told = true;
        fprintf(stderr, "\r%s events", shown(in->events));
        if (in->length)
            fprintf(stderr, ", %" PRIu64 " %%", in->at * 100 / in->length);
        fflush(stderr);
    }
}

static void tell_wrong(const event *e, const cache_answer *due, const extent *all) {
    char *texts[3] = {NULL};
    size_t lens[3] = {0};
    for (int i = 0; i < 3; i++) {
        FILE *out = open_memstream(&texts[i], &lens[i]);
        if (!out)
            give_up("there is no memory for event %" PRIu64, e->number);
        if (i == 0)
            print_call(out, e);
        else if (i == 1)
            print_reply(out, e->is.kind, e->is.reply, e->is.answer, e->text);
        else
            print_reply(out, e->is.kind, due->kind,
                        due->kind == CACHE_STR ? due->len : (uint64_t)due->number,
                        due->kind == CACHE_STR && e->text ? answered(due) : NULL);
        if (fclose(out) != 0)
            give_up("there is no memory for event %" PRIu64, e->number);
        lens[i]--; /* the line feed */
    }
    printf("event %" PRIu64 ", second %" PRIu64 ", process %u: not the due reply\n", e->number,
           seconds(all), e->is.process);
    if (all->remade > 0)
        printf("in the empty cache that took the place of another one for the %" PRIu64 ". time\n", all->remade);
    show("call ", texts[0], lens[0]);
    show("given", texts[1], lens[1]);
    show("due  ", texts[2], lens[2]);
    size_t same = 0;
    while (same < lens[1] && same < lens[2] && texts[1][same] == texts[2][same])
        same++;
    if (lens[2] > 100)
        printf("  they differ from byte %zu on\n", same);
}

static int judge(source *in) {
    static extent all;
    static player p;
    event e;
    const char *fault;
    make_cache(&p, &in->shape);
    while (next_event(in, &e, &fault)) {
        if (e.is.kind == RECORD_REMADE) {
            make_cache(&p, &in->shape);
            all.remade++;
            continue;
        }
        reach(&all, &e);
        cache_answer due = ask(&p, &e);
        if (!is_due(&e, &due)) {
            tell_progress(in, true);
            tell_wrong(&e, &due, &all);
            return WRONG;
        }
        if (in->events % LOOK_EACH == 0) {
            tell_progress(in, false);
            if (is_interrupted)
                break;
        }
    }
    tell_progress(in, true);
    if (is_interrupted)
        fprintf(stderr, "interrupted at event %" PRIu64 "%s\n", in->events,
                in->length ? "" : " of a pipe");
    if (is_interrupted && in->length)
        fprintf(stderr, "%" PRIu64 " of %" PRIu64 " bytes were judged\n", in->at, in->length);
    if (fault)
        fprintf(stderr, "%s: byte %" PRIu64 ": %s; what comes from there on is left out\n", in->path,
                in->at, fault);
    if (in->events == 0) {
        fprintf(stderr, "%s: there is no event\n", in->path);
        return NOTHING;
    }
    bool is_part = is_interrupted || fault;
    uint64_t events = in->events - all.remade;
    if (all.remade > 0)
        printf("an empty cache took the place of the old one %s %s, since a process was killed in a call\n",
               shown(all.remade), plural(all.remade, "time", "times"));
    printf("%s %s of %s %s in %s %s: each %sreply is right%s\n", shown(events),
           plural(events, "event", "events"), shown(all.processes),
           plural(all.processes, "process", "processes"), shown(seconds(&all)),
           plural(seconds(&all), "second", "seconds"), is_part ? "judged " : "",
           in->has_values ? "" : "; values were left out, so this is of their lengths");
    return is_part ? IN_PART : RIGHT;
}

/* The totals of a cache. Its own counters begin at 0 again at an expunge; these do not. */
typedef struct {
    uint64_t hits, misses, inserts, refused, expunges;
} sums;

static void count(sums *to, const event *e, const cache_answer *answer) {
    switch (e->is.kind) {
    case CACHE_LOOK:
        to->hits += answer->kind <= CACHE_STR;
        to->misses += answer->kind > CACHE_STR;
        return;
    case CACHE_STORE:
        to->refused += answer->kind != CACHE_YES;
        to->inserts += answer->kind == CACHE_YES;
        return;
    case CACHE_ADD:
        to->inserts += answer->kind == CACHE_YES;
        return;
    default:
        return;
    }
}

typedef struct {
    uint32_t place, size;
    bool is_row;
} block;

static int by_place(const void *one, const void *other) {
    uint32_t a = ((const block *)one)->place, b = ((const block *)other)->place;
    return (a > b) - (a < b);
}

/* Words of the largest gap. */
static uint32_t largest_gap(uint8_t *cache) {
    static cache_gap gaps[1024];
    uint32_t largest = 0, from = 0;
    for (uint64_t n; (n = cache_list_gaps(cache, from, gaps, 1024)) > 0;
         from = gaps[n - 1].place + 1) {
        for (uint64_t i = 0; i < n; i++)
            largest = gaps[i].size > largest ? gaps[i].size : largest;
    }
    return largest;
}

static block *add_block(block *blocks, size_t *count, size_t *size, block added) {
    if (*count == *size) {
        *size = *size ? 2 * *size : 4096;
        blocks = realloc(blocks, *size * sizeof *blocks);
        if (!blocks)
            give_up("there is no memory for a map of %zu blocks", *size);
    }
    blocks[(*count)++] = added;
    return blocks;
}

/* The same lines as those of apcu_run's map: each block and gap by its place. */
static void print_map(uint8_t *cache, const cache_shape *shape) {
    static cache_row rows[1024];
    static cache_gap gaps[1024];
    block *blocks = NULL;
    size_t count = 0, size = 0;
    for (uint32_t slot = 0; slot <= shape->slots; slot++) {
        uint64_t skip = 0;
        for (uint64_t n; (n = cache_list_rows(cache, slot, skip, rows, 1024)) > 0; skip += n) {
            for (uint64_t i = 0; i < n; i++)
                blocks = add_block(blocks, &count, &size, (block){rows[i].place, rows[i].size, true});
        }
    }
    uint32_t from = 0;
    for (uint64_t n; (n = cache_list_gaps(cache, from, gaps, 1024)) > 0;
         from = gaps[n - 1].place + 1) {
        for (uint64_t i = 0; i < n; i++)
            blocks = add_block(blocks, &count, &size, (block){gaps[i].place, gaps[i].size, false});
    }
    if (count > 0)
        qsort(blocks, count, sizeof *blocks, by_place);
    puts("map");
    for (size_t i = 0; i < count; i++)
        printf("%s %u %u\n", blocks[i].is_row ? "row" : "free", blocks[i].place, blocks[i].size);
    printf("largest %u\n", largest_gap(cache));
    free(blocks);
}

static int play(source *in, const cache_shape *shape, bool is_mapped) {
    event e;
    const char *fault;
    sums all = {0};
    static player p;
    make_cache(&p, shape);
    while (next_event(in, &e, &fault)) {
        if (e.is.kind == RECORD_REMADE || e.is.kind == CACHE_CLEAR)
            all.expunges += cache_get_counts(p.handle).expunges;
        if (e.is.kind == RECORD_REMADE) {
            make_cache(&p, shape);
            continue;
        }
        cache_answer answer = ask(&p, &e);
        count(&all, &e, &answer);
        if (in->events % LOOK_EACH == 0) {
            tell_progress(in, false);
            if (is_interrupted)
                break;
        }
    }
    tell_progress(in, true);
    if (is_interrupted)
        give_up("interrupted at event %" PRIu64, in->events);
    if (fault)
        fprintf(stderr, "%s: byte %" PRIu64 ": %s; what comes from there on is left out\n", in->path,
                in->at, fault);
    count_uses(&p);
    cache_counts counts = cache_get_counts(p.handle);
    printf("hits %" PRIu64 "\nmisses %" PRIu64 "\ninserts %" PRIu64 "\nrefused %" PRIu64
           "\nexpunges %" PRIu64 "\nentries %" PRIu64 "\nused %" PRIu64 "\nfree %" PRIu64 "\n",
           all.hits, all.misses, all.inserts, all.refused, all.expunges + counts.expunges,
           counts.entries, 8 * counts.row_words, 8 * (uint64_t)largest_gap(p.handle));
    if (is_mapped)
        print_map(p.handle, shape);
    if (fflush(stdout) != 0 || ferror(stdout))
        give_up("the output: %s", strerror(errno));
    return RIGHT;
}

/* A number of an option, at most this one. */
static uint64_t number_of(const char *name, const char *text, uint64_t most, bool has_unit) {
    char *end;
    errno = 0;
    unsigned long long number = strtoull(text, &end, 10);
    unsigned shift = 0;
    if (has_unit && *end != 0 && strchr("kKmMgG", *end)) {
        shift = *end == 'k' || *end == 'K' ? 10 : *end == 'm' || *end == 'M' ? 20 : 30;
        end++;
    }
    if (*text < '0' || *text > '9' || *end != 0 || errno != 0 || number > most >> shift)
        give_up("--%s %s: it takes a number up to %" PRIu64, name, text, most);
    return (uint64_t)number << shift;
}

int main(int count, char **words) {
    static const struct option options[] = {
        {"play", no_argument, NULL, 'p'},      {"print", no_argument, NULL, 't'},
        {"map", no_argument, NULL, 'm'},       {"shm-size", required_argument, NULL, 's'},
        {"slots", required_argument, NULL, 'n'}, {"ttl", required_argument, NULL, 'l'},
        {"help", no_argument, NULL, 'h'},      {NULL, 0, NULL, 0}};
    bool is_played = false, is_printed = false, is_mapped = false;
    uint64_t size = 0, slots = 0, ttl = UINT64_MAX;
    for (int c; (c = getopt_long(count, words, "h", options, NULL)) != -1;) {
        switch (c) {
        case 'p':
            is_played = true;
            break;
        case 't':
            is_printed = true;
            break;
        case 'm':
            is_mapped = true;
            break;
        case 's':
            size = number_of("shm-size", optarg, (uint64_t)1 << 31, true);
            break;
        case 'n':
            slots = number_of("slots", optarg, 1048576, false);
            break;
        case 'l':
            ttl = number_of("ttl", optarg, UINT32_MAX, false);
            break;
        case 'h':
            fputs(usage, stdout);
            return RIGHT;
        default:
            fputs(usage, stderr);
            return NOTHING;
        }
    }
    bool has_shape = size != 0 || slots != 0 || ttl != UINT64_MAX || is_mapped;
    if (optind + 1 != count || (is_played && is_printed) || (has_shape && !is_played)) {
        fputs(usage, stderr);
        return NOTHING;
    }

    source in;
    struct sigaction action = {.sa_handler = interrupt};
    sigaction(SIGINT, &action, NULL);
    sigaction(SIGTERM, &action, NULL);
    open_record(&in, words[optind]);
    if (is_printed)
        return print_record(&in);
    if (!in.has_values && !(zeros = calloc((size_t)in.shape.words + 1, 8)))
        give_up("there is no memory for a string of the cache's size");
    if (!is_played)
        return judge(&in);
    cache_shape shape = in.shape;
    shape.words = size ? (uint32_t)(size / 16 * 2) : shape.words;
    shape.slots = slots ? (uint32_t)slots : shape.slots;
    shape.ttl = ttl != UINT64_MAX ? (uint32_t)ttl : shape.ttl;
    return play(&in, &shape, is_mapped);
}
