/* SPDX-License-Identifier: MIT */
/* The record of the cache's requests and answers: with apc.record_dir the server writes
 * one file, with which php/judge.php checks whether each answer was the right one. */
#ifndef APCU_RECORD_H
#define APCU_RECORD_H

#include "php.h"
#include "cache_c.h"

/* Whether this process records events. It is false without apc.record_dir, and when recording has
 * ended. */
extern bool apcu_is_recorded;

/* Before there is a second process and after the cache was made: makes the folder, unless it exists,
 * and the file. `limit` is the largest size of the file in bytes, 0 for no limit. A message if that
 * failed; then nothing is recorded. */
const char *apcu_record_start(const char *folder, bool has_values, uint64_t limit);

/* Under the lock: whether all processes record events. Then none of them reads in a lane until the lock is
 * released: a process that ends the recording without the lock does so before it takes a lane. */
bool apcu_record_is_on(void);

/* Under the lock, before another process learns of the answer: appends an event. True if
 * apcu_record_write has something to do after the lock is released. */
bool apcu_record_note(const cache_request *request, const char *key, size_t key_len, const char *bytes, size_t len,
	const cache_answer *answer);

/* Under the lock, if its last owner died; `is_remade`: an empty cache replaced the last one.
 * True as above. */
bool apcu_record_recover(bool is_remade);

/* After the lock was released: writes what is due. A message for the log if recording ended. */
const char *apcu_record_write(void);

/* At the end of a request: writes what waits for a second or longer. At the end of the process:
 * writes what waits. A message as above. */
const char *apcu_record_leave(void);
const char *apcu_record_stop(void);

#endif
