/* SPDX-License-Identifier: MIT */
/* What a program in C takes to print a fetch of one text that is in a table of words, from the
 * words to a file that takes all: `hold` keeps the whole output until the last fetch, as a run of
 * this repository must; `stream` writes as its buffer of 256 KB fills; `copy` prints nothing, and
 * makes and frees a copy, as a loop of PHP's does.
 * Usage: fetch hold|stream|copy BYTES CALLS. Prints the nanoseconds of a fetch. */
#define _GNU_SOURCE
#include <fcntl.h>
#include <stdbool.h>
#include <stdint.h>
#include <stdio.h>
#include <stdlib.h>
#include <string.h>
#include <time.h>
#include <unistd.h>

enum { TABLE = 32 << 20, PLACE = 4110 * 8, BUFFER = 256 << 10, AROUND = 40 /* bytes or fewer */ };

static void stop(const char *why) {
    perror(why);
    exit(1);
}

/* What is printed. */
static char *out;
static size_t len, capacity;
static int file;

static void flush(void) {
    if (write(file, out, len) != (ssize_t)len)
        stop("write");
    len = 0;
}

/* Room for this many bytes: in the same buffer, or in one that has twice the size. */
static void make_room(size_t n, bool is_stream) {
    if (len + n <= capacity)
        return;
    if (is_stream && len > 0)
        flush();
    if (len + n <= capacity)
        return;
    capacity = 2 * capacity > len + n ? 2 * capacity : len + n;
    out = realloc(out, capacity);
    if (!out)
        stop("memory");
}

static void print(const char *text, size_t bytes, bool is_stream) {
    make_room(bytes + AROUND, is_stream);
    len += (size_t)sprintf(out + len, "s:%zu:\"", bytes);
    memcpy(out + len, text, bytes);
    len += bytes;
    memcpy(out + len, "\";b:1;\n", 7);
    len += 7;
}

static void copy(const char *text, size_t bytes) {
    char *at = malloc(bytes);
    if (!at)
        stop("memory");
    memcpy(at, text, bytes);
    __asm__ volatile("" ::"r"(at) : "memory");
    free(at);
}

static uint64_t nanoseconds(void) {
    struct timespec t;
    clock_gettime(CLOCK_MONOTONIC, &t);
    return (uint64_t)t.tv_sec * 1000000000 + (uint64_t)t.tv_nsec;
}

int main(int argc, char **argv) {
    if (argc != 4) {
        fputs("usage: fetch hold|stream|copy BYTES CALLS\n", stderr);
        return 1;
    }
    bool is_stream = strcmp(argv[1], "stream") == 0, is_copy = strcmp(argv[1], "copy") == 0;
    size_t bytes = (size_t)atol(argv[2]);
    long calls = atol(argv[3]);
    char *table = aligned_alloc(64, TABLE);
    if (!table || bytes > TABLE - PLACE || calls < 1)
        stop("table");
    memset(table, 0, TABLE);
    memset(table + PLACE, 'z', bytes);
    file = open("/dev/null", O_WRONLY);
    if (file < 0)
        stop("/dev/null");

    uint64_t begin = nanoseconds();
    if (is_stream)
        make_room(BUFFER, false);
    for (long i = 0; i < calls; i++) {
        if (is_copy)
            copy(table + PLACE, bytes);
        else
            print(table + PLACE, bytes, is_stream);
    }
    flush();
    free(out);
    printf("%.0f\n", (double)(nanoseconds() - begin) / (double)calls);
    return 0;
}
