/* SPDX-License-Identifier: MIT */
/* Events are appended under the lock, in their order, to a ring in memory that all processes share. A
 * process that finds it half full becomes the writer: when it has released the lock, it copies what
 * waits to the file, which the server opened before it forked. docs/RECORD.md and record_file.h have
 * the form of the file.
 *
 * A position in the ring counts bytes since the file's begin, so it is the place in the file too: a
 * process that writes a part again writes the same bytes at the same place. A process that is killed has
 * appended a whole event or none, and another one replaces a writer that died. */
#include "record.h"

#include <errno.h>
#include <fcntl.h>
#include <pthread.h>
#include <stdio.h>
#include <stdlib.h>
#include <string.h>
#include <sys/mman.h>
#include <sys/random.h>
#include <sys/stat.h>
#include <unistd.h>

#include "php_apcu.h"
#include "record_file.h"

#define RING_BYTES (1 << 20)

/* If the ring is full and its writer writes nothing for this long, recording ends: the process that waits
 * has the lock. */
#define PATIENCE_NANOSECONDS 1000000000

enum { RECORDING, ENDED, FAILED };

/* What was appended. */
typedef struct {
	uint64_t end, events;
} extent;

typedef struct {
	extent extents[2];              /* written under the lock; the one that counts is that of current */
	_Atomic uint32_t current;
	_Atomic uint64_t written;       /* the file has everything before */
	_Atomic time_t written_at;
	_Atomic uint32_t state;         /* RECORDING; ENDED: what was appended is still written; FAILED */
	_Atomic bool has_children;      /* a process was forked */
	bool is_taking;                 /* the owner of the lock takes the mark */
	robust_mark writer;             /* the process that writes outside of the lock */
	char bytes[RING_BYTES];
} ring;

bool apcu_is_recorded;

static ring *all;
static int file = -1;
static int folder_file = -1;
static char name[64], path[4096];
static pid_t maker, process; /* of the file; this one */
static bool is_with_values;
static uint64_t most; /* bytes of the file */

/* Of this process: the position up to which it has to write, because it has the mark; 0: it has not. */
static uint64_t due;
static const char *message;
static char fault[4400];

static zif_handler exec_handler;

static const extent *appended(void)
{
	return &all->extents[all->current];
}

/* Ends the recording of all processes; the first one of them has a message. */
static void end(uint32_t state, const char *why)
{
	uint32_t before = RECORDING;

	apcu_is_recorded = false;
	if (atomic_compare_exchange_strong(&all->state, &before, state)) {
		snprintf(fault, sizeof fault, "apcu: no more calls are recorded: %s: %s", path, why);
		message = fault;
	} else if (state == FAILED) {
		all->state = FAILED;
	}
}

/* By the one process that may write: copies what waits before this position to the file. */
static bool write_up_to(uint64_t position)
{
	while (all->written < position) {
		size_t at = all->written % RING_BYTES;
		size_t len = position - all->written < RING_BYTES - at ? position - all->written : RING_BYTES - at;
		ssize_t n = pwrite(file, all->bytes + at, len, (off_t) all->written);

		if (n < 0 && errno != EINTR) {
			end(FAILED, strerror(errno));
			return false;
		}
		all->written += n > 0 ? (uint64_t) n : 0;
	}
	all->written_at = time(NULL);
	return true;
}

/* Under the lock: whether a process that is alive writes. */
static bool has_writer(void)
{
	return robust_mark_is_owned(&all->writer, &shared_at->lock);
}

/* Under the lock: makes this process the writer of what was appended. */
static void become_writer(void)
{
	/* This file has a thread's number and list of its own. */
	robust_has_words();
	all->is_taking = true;
	atomic_signal_fence(memory_order_seq_cst);
	robust_mark_take(&all->writer, &shared_at->lock);
	atomic_signal_fence(memory_order_seq_cst);
	all->is_taking = false;
	due = appended()->end;
}

/* Under the lock, with a full ring: waits for the writer, or writes itself, up to this position. */
static bool make_room(uint64_t position)
{
	uint64_t written = all->written, since = robust_nanoseconds();

	while (has_writer()) {
		usleep(50);
		if (all->written != written) {
			return true;
		}
		if (robust_nanoseconds() - since > PATIENCE_NANOSECONDS) {
			end(FAILED, "no byte was written for a second");
			return false;
		}
	}
	return all->state != FAILED && write_up_to(position);
}

/* How many of these bytes fit in one piece after a position that has room for at least one. 0:
 * recording has failed. */
static size_t room_for(uint64_t position, size_t len)
{
	size_t in_piece = RING_BYTES - position % RING_BYTES, room;

	if (UNEXPECTED(position - all->written == RING_BYTES) && !make_room(position)) {
		return 0;
	}
	room = RING_BYTES - (position - all->written);
	room = room < in_piece ? room : in_piece;
	return room < len ? room : len;
}

static bool put(uint64_t *position, const void *bytes, size_t len)
{
	for (const char *from = bytes; len > 0;) {
		size_t n = room_for(*position, len);

		if (UNEXPECTED(n == 0)) {
			return false;
		}
		memcpy(all->bytes + *position % RING_BYTES, from, n);
		*position += n;
		from += n;
		len -= n;
	}
	return true;
}

/* The position at which the next event begins. A process that died in one that the ring does not hold left a part of it
 * in the file. */
static uint64_t next_position(void)
{
	uint64_t position = appended()->end;

	if (UNEXPECTED(all->written > position)) {
		if (ftruncate(file, (off_t) position) != 0) {
			end(FAILED, strerror(errno));
		}
		all->written = position;
	}
	return position;
}

/* The event counts from here on. True if there is something to do outside of the lock. */
static bool append(uint64_t position)
{
	extent *next = &all->extents[1 - all->current];

	*next = (extent) {position, appended()->events + 1};
	atomic_signal_fence(memory_order_seq_cst);
	all->current = 1 - all->current;
	atomic_signal_fence(memory_order_seq_cst);
	if (UNEXPECTED(position - all->written >= RING_BYTES / 2) && !has_writer()) {
		become_writer();
	}
	return due != 0;
}

static bool is_full(size_t more)
{
	return most != 0 && more > most - (appended()->end < most ? appended()->end : most);
}

/* An event in the ring, where it may begin at any byte. */
typedef struct __attribute__((packed, may_alias)) {
	record_event is;
} event_in_ring;

static zend_always_inline bool is_store(const cache_request *request)
{
	return request->kind == CACHE_STORE || request->kind == CACHE_ADD;
}

/* Each kind has a case, so that one that cache_c.h gains does not compile until it is decided here what of it is
 * recorded. */
#pragma GCC diagnostic push
#pragma GCC diagnostic error "-Wswitch"

/* Each field is written where it belongs: the processor reads what was written in smaller parts with a delay. */
static zend_always_inline void write_event(event_in_ring *to, const cache_request *request, size_t key_len, size_t len,
	const cache_answer *answer)
{
	uint64_t number = request->number, set = request->ttl;
	uint8_t value = 0;

	switch ((enum cache_event) request->kind) {
		case CACHE_STORE:
		case CACHE_ADD:
			value = (uint8_t) request->value;
			if (request->value == CACHE_STR) {
				number = len;
			}
			break;
		case CACHE_SWAP:
			set = request->set;
			break;
		case CACHE_LOOK:
		case CACHE_EXISTS:
		case CACHE_DELETE:
		case CACHE_COUNT:
		case CACHE_CLEAR:
		case CACHE_HOLD:
			break;
	}
	to->is.t = request->t;
	to->is.number = number;
	to->is.set = set;
	to->is.answer = answer->kind == CACHE_STR ? answer->len
		: answer->kind == CACHE_INT || answer->kind == CACHE_BOOL ? (uint64_t) answer->number : 0;
	to->is.event = (uint32_t) appended()->events;
	to->is.process = (uint32_t) process;
	to->is.key_len = (uint32_t) key_len;
	to->is.kind = (uint8_t) request->kind;
	to->is.value = value;
	to->is.reply = (uint8_t) answer->kind;
	to->is.zero = 0;
}

#pragma GCC diagnostic pop

bool apcu_record_is_on(void)
{
	return apcu_is_recorded && all->state == RECORDING;
}

bool apcu_record_note(const cache_request *request, const char *key, size_t key_len, const char *bytes, size_t len,
	const cache_answer *answer)
{
	if (answer->kind == CACHE_BAD || answer->kind == CACHE_TOO_LONG) {
		return false;
	}
	if (UNEXPECTED(all->state != RECORDING)) {
		apcu_is_recorded = false;
		return false;
	}

	/* A clear has no key. */
	if (request->kind == CACHE_CLEAR) {
		key_len = 0;
	}
	const char *text = bytes;
	size_t text_len = 0;
	if (is_with_values && is_store(request) && request->value == CACHE_STR) {
		text_len = len;
	} else if (is_with_values && request->kind == CACHE_LOOK && answer->kind == CACHE_STR) {
		text = (const char *) (shared_at->words + answer->place);
		text_len = answer->len;
	}

	size_t size = sizeof(event_in_ring) + key_len + text_len;
	if (UNEXPECTED(is_full(size))) {
		end(ENDED, "apc.record_size is reached");
		if (!has_writer()) {
			become_writer();
		}
		return true;
	}

	uint64_t position = next_position();
	size_t at = position % RING_BYTES;
	if (EXPECTED(size <= RING_BYTES - at && size <= RING_BYTES - (position - all->written))) {
		char *to = all->bytes + at;

		write_event((event_in_ring *) to, request, key_len, len, answer);
		to += sizeof(event_in_ring);
		memcpy(to, key, key_len);
		memcpy(to + key_len, text, text_len);
		return append(position + size);
	}

	/* It is in two pieces of the ring, or room is made for it. */
	event_in_ring e;
	write_event(&e, request, key_len, len, answer);
	if (put(&position, &e, sizeof e) && put(&position, key, key_len) && put(&position, text, text_len)) {
		return append(position);
	}
	return message != NULL;
}

bool apcu_record_recover(bool is_remade)
{
	if (!all) {
		return false;
	}
	if (all->is_taking) {
		robust_mark_reset(&all->writer, &shared_at->lock);
		all->is_taking = false;
	}
	if (!is_remade || all->state != RECORDING) {
		return false;
	}

	record_event e = {
		.t = (uint64_t) time(NULL),
		.event = (uint32_t) appended()->events,
		.process = (uint32_t) process,
		.kind = RECORD_REMADE
	};
	uint64_t position = next_position();
	return put(&position, &e, sizeof e) ? append(position) : message != NULL;
}

const char *apcu_record_write(void)
{
	const char *told;

	if (due != 0) {
		if (all->state != FAILED) {
			write_up_to(due);
		}
		due = 0;
		robust_mark_release(&all->writer, &shared_at->lock);
	}
	told = message;
	message = NULL;
	return told;
}

/* Writes what waits, unless another process does so. */
static const char *flush(void)
{
	if (all->state == FAILED || !shared_lock()) {
		return NULL;
	}
	if (all->written < appended()->end && !has_writer()) {
		become_writer();
	}
	shared_unlock();
	return apcu_record_write();
}

const char *apcu_record_leave(void)
{
	return all && all->written < appended()->end && all->written_at != time(NULL) ? flush() : NULL;
}

/* What waits is written before a process runs another program. */
static ZEND_FUNCTION(exec_after_write)
{
	const char *told = all ? flush() : NULL;

	if (UNEXPECTED(told)) {
		php_log_err(told);
	}
	exec_handler(INTERNAL_FUNCTION_PARAM_PASSTHRU);
}

static void hook_exec(void)
{
	zend_internal_function *exec = zend_hash_str_find_ptr(CG(function_table), ZEND_STRL("pcntl_exec"));

	if (exec && exec->type == ZEND_INTERNAL_FUNCTION && exec->handler != ZEND_FN(exec_after_write)) {
		exec_handler = exec->handler;
		exec->handler = ZEND_FN(exec_after_write);
	}
}

static void note_child(void)
{
	process = getpid();
	if (all) {
		all->has_children = true;
	}
}

/* Null, or why no file is made in the folder: a user other than root and the server's own could replace
 * a file that is being written. This is the case if root starts the server and the folder's owner is the
 * user of a pool: what root reads there later could be a link of that user's. */
static const char *fault_of_folder(void)
{
	static char text[160];
	struct stat is;

	if (fstat(folder_file, &is) != 0) {
		return strerror(errno);
	}
	if (is.st_uid != 0 && is.st_uid != geteuid()) {
		snprintf(text, sizeof text, "the folder's owner is user %lu; it has to be %suser %lu, which starts the server",
			(unsigned long) is.st_uid, geteuid() == 0 ? "" : "root or ", (unsigned long) geteuid());
		return text;
	}
	if ((is.st_mode & (S_IWGRP | S_IWOTH)) != 0 && (is.st_mode & S_ISVTX) == 0) {
		return "others may write in the folder, and it has no sticky bit";
	}
	return NULL;
}

/* Makes the folder, unless it exists, and a file in it for its owner only: null, or why it can't. */
static const char *make_file(const char *folder, uint64_t server)
{
	mode_t before = umask(0);
	bool is_made = mkdir(folder, 0700) == 0 || errno == EEXIST;
	const char *why;

	umask(before);
	snprintf(path, sizeof path, "%s", folder);
	folder_file = is_made ? open(folder, O_PATH | O_DIRECTORY | O_NOFOLLOW | O_CLOEXEC) : -1;
	if (folder_file < 0) {
		return strerror(errno);
	}
	why = fault_of_folder();
	if (why) {
		return why;
	}
	snprintf(name, sizeof name, "%016llx.record", (unsigned long long) server);
	snprintf(path, sizeof path, "%s/%s", folder, name);
	file = openat(folder_file, name, O_WRONLY | O_CREAT | O_EXCL | O_CLOEXEC | O_NOFOLLOW, 0600);
	return file < 0 ? strerror(errno) : NULL;
}

static bool write_head(uint64_t server)
{
	char head[RECORD_HEAD];
	int len = snprintf(head, sizeof head, RECORD_NAME "server %016llx\nshm-size %llu\nslots %u\nttl %u\nvalues %d\n\n",
		(unsigned long long) server, (unsigned long long) shared_at->shape.words * 8, shared_at->shape.slots,
		shared_at->shape.ttl, is_with_values);
	uint64_t position = 0;

	put(&position, head, (size_t) len);
	all->extents[0].end = position;
	return write_up_to(position);
}

static void stop(void)
{
	if (file >= 0) {
		close(file);
		file = -1;
	}
	if (folder_file >= 0) {
		close(folder_file);
		folder_file = -1;
	}
	if (all) {
		munmap(all, sizeof *all);
		all = NULL;
	}
	apcu_is_recorded = false;
}

const char *apcu_record_start(const char *folder, bool has_values, uint64_t limit)
{
	static bool is_prepared;
	uint64_t server;
	const char *why;

	/* Clocks do for a number that only has to differ, if the system has no better one. */
	if (getrandom(&server, sizeof server, GRND_NONBLOCK) != sizeof server) {
		server = (uint64_t) time(NULL) << 24 ^ (uint64_t) getpid();
	}
	is_with_values = has_values;
	most = limit;
	maker = process = getpid();
	why = make_file(folder, server);
	if (!why) {
		void *at = mmap(NULL, sizeof *all, PROT_READ | PROT_WRITE, MAP_SHARED | MAP_ANONYMOUS, -1, 0);

		is_prepared = is_prepared || pthread_atfork(NULL, NULL, note_child) == 0;
		all = at == MAP_FAILED ? NULL : at;
		if (!all || !is_prepared || !robust_mark_make(&all->writer, &shared_at->lock)) {
			why = "no memory";
		} else if (!write_head(server)) {
			why = strerror(errno);
		}
	}
	if (why) {
		snprintf(fault, sizeof fault, "apcu: no calls are recorded: %s: %s", path, why);
		message = NULL;
		if (file >= 0) {
			unlinkat(folder_file, name, 0);
		}
		stop();
		return fault;
	}
	hook_exec();
	apcu_is_recorded = true;
	return NULL;
}

const char *apcu_record_stop(void)
{
	const char *told = NULL;

	if (!all) {
		return NULL;
	}
	/* The server's own process waits for a worker that still writes. */
	for (int n = 0; n < 1000 && !told && all->state != FAILED && all->written < appended()->end; n++) {
		told = flush();
		if (process != maker || all->written >= appended()->end) {
			break;
		}
		usleep(1000);
	}
	if (process == maker && appended()->events == 0 && !all->has_children) {
		unlinkat(folder_file, name, 0);
	}
	stop();
	return told;
}
