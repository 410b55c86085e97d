/* SPDX-License-Identifier: MIT */
/* capi/shared_cache.c is compiled as a part of this file, with the hooks by which signals wait while the lock is held,
 * and calls are recorded. */
#include <signal.h>
#include <string.h>
#include <time.h>

#include "php_apcu.h"
#include "record.h"

bool apcu_has_hash_of_php;

/* A message for the log about the cache that replaced another one, or null. */
static const char *remade_message;

/* Something waits until the lock is released: events to be written, or that message. */
static bool has_news;

/* As HANDLE_UNBLOCK_INTERRUPTIONS. That macro assumes that the first waiting signal is still there, but
 * another one that arrives just then may have handled all of them. */
#ifdef ZEND_SIGNALS
static zend_never_inline void let_waiting_signals(void)
{
	sigset_t all, before;

	sigfillset(&all);
	pthread_sigmask(SIG_BLOCK, &all, &before);
	if (SIGG(phead)) {
		zend_signal_handler_unblock();
	}
	pthread_sigmask(SIG_SETMASK, &before, NULL);
}
#endif

static zend_always_inline void let_signals(void)
{
#ifdef ZEND_SIGNALS
	if (UNEXPECTED(SIGG(depth)-- == SIGG(blocked))) {
		let_waiting_signals();
	}
#endif
}

/* After the lock was released. */
static zend_never_inline void write_news(void)
{
	const char *message = remade_message;

	has_news = false;
	remade_message = NULL;

	const char *fault = apcu_record_write();
	let_signals();
	if (UNEXPECTED(message)) {
		php_log_err(message);
	}
	if (UNEXPECTED(fault)) {
		php_log_err(fault);
	}
}

/* The hooks; capi/shared_host.h says when each is called. */

static zend_always_inline void shared_before(void)
{
	HANDLE_BLOCK_INTERRUPTIONS();
}

static zend_always_inline void shared_after(bool had_lock)
{
	if (had_lock && UNEXPECTED(has_news)) {
		write_news();
	} else {
		let_signals();
	}
}

static zend_always_inline bool shared_is_recorded(void)
{
	return apcu_is_recorded;
}

static zend_always_inline bool shared_are_all_recorded(void)
{
	return apcu_record_is_on();
}

static zend_always_inline void shared_note(const cache_request *request, const uint8_t *key, size_t key_len,
	const uint8_t *bytes, size_t len, const cache_answer *answer)
{
	if (apcu_record_note(request, (const char *) key, key_len, (const char *) bytes, len, answer)) {
		has_news = true;
	}
}

static void shared_note_reset(void)
{
	apcu_shm()->start_time = time(NULL);
	memset(&apcu_shm()->last, 0, sizeof apcu_shm()->last);
}

static void shared_note_death(bool is_remade)
{
	if (is_remade) {
		remade_message = shared_at->is_made
			? "apcu: a process died while it changed the cache; an empty one has taken its place"
			: "apcu: a process died while it changed the cache, and no empty one could be made: there is none until PHP restarts";
		has_news = true;
	}
	if (apcu_record_recover(is_remade)) {
		has_news = true;
	}
}

#define SHARED_HOST
#include "shared_cache.c"

static bool is_hash_of_php(void)
{
	static const char *const keys[] = {"", "a", "user:1", "a key of more than eight bytes", "\x01\x7f~"};

	for (size_t i = 0; i < sizeof keys / sizeof *keys; i++) {
		size_t len = strlen(keys[i]);

		if (zend_hash_func(keys[i], len) != cache_hash((const uint8_t *) keys[i], len)) {
			return false;
		}
	}
	return true;
}

bool apcu_shm_start(const cache_shape *shape, bool is_dumped, size_t *bytes)
{
	apcu_has_hash_of_php = is_hash_of_php();
	if (shared_start_for(shape, sizeof(apcu_shared), is_dumped, bytes) != CACHE_MADE) {
		return false;
	}
	for (size_t i = 0; i < APCU_ENTRY_GROUPS; i++) {
		if (!robust_lock_make(&apcu_shm()->entry[i].lock, false)) {
			shared_end();
			return false;
		}
	}
	return true;
}

apcu_state apcu_shm_state(void)
{
	return (apcu_state) {
		.counts = cache_get_counts(shared_at->cache),
		.start_time = apcu_shm()->start_time,
		.remakes = shared_get_deaths().inside,
		.seats = seats_count(&shared_at->seats),
		.longest = shared_at->lock.longest,
		.longest_entry = atomic_load_explicit(&apcu_shm()->longest_entry, memory_order_relaxed)
	};
}

size_t apcu_shm_rows(void)
{
	return shared_at ? *(volatile uint32_t *) &shared_at->view.rows : 0;
}

void apcu_shm_note_entry_wait(uint64_t nanoseconds)
{
	_Atomic uint64_t *noted = &apcu_shm()->longest_entry;
	uint64_t longest = atomic_load_explicit(noted, memory_order_relaxed);

	while (nanoseconds > longest && !atomic_compare_exchange_weak_explicit(noted, &longest, nanoseconds,
			memory_order_relaxed, memory_order_relaxed)) {
	}
}

uint64_t apcu_shm_stamp(void)
{
	return atomic_fetch_add_explicit(&apcu_shm()->stamps, 1, memory_order_relaxed) + 1;
}

static zend_always_inline void find_in(const zend_string *key, uint64_t hash, time_t t, struct cache_found *found)
{
	shared_read_find((const uint8_t *) ZSTR_VAL(key), ZSTR_LEN(key), hash, (uint64_t) t, found);
}

/* In a lane or under the lock, with apc.kept_size: the kept value of a string that was found, or null. Other processes
 * may read at the same time, so no call gets the handle. */
static zend_always_inline apcu_kept *kept_of(zend_string *key, uint32_t kind, uint32_t place, uint64_t len)
{
	uint8_t tail[APCU_TAIL];

	if (kind != CACHE_STR || !apcu_may_have_stamp(len)) {
		return NULL;
	}
	memcpy(tail, shared_at->words + place + len / 8 - 1, sizeof tail);
	return apcu_kept_find(key, tail);
}

bool apcu_read(zend_string *key, uint64_t hash, time_t t, bool only_hits, char *few, zend_string *text, apcu_seen *seen)
{
	struct cache_found *found = &seen->found;
	shared_reading one;

	if (UNEXPECTED(!shared_read_begin(&one, (uint64_t) t, true))) {
		return false;
	}
	find_in(key, hash, t, found);
	seen->kept = UNEXPECTED(APCU_G(kept_size) > 0) ? kept_of(key, found->kind, found->place, found->len) : NULL;
	seen->bytes = few;
	if (found->kind == CACHE_STR && EXPECTED(!seen->kept)) {
		if (found->len > APCU_FEW_BYTES) {
			seen->bytes = text && found->len <= ZSTR_LEN(text) + 1 ? ZSTR_VAL(text) : NULL;
		}
		if (EXPECTED(seen->bytes)) {
			apcu_copy_found(found->place, found->len, seen->bytes);
		}
	}
	if (EXPECTED(seen->bytes) && (EXPECTED(found->row != 0) || !only_hits)) {
		shared_read_note(&one, found->row, (uint64_t) t);
	}
	shared_read_end(&one);
	return true;
}

bool apcu_read_exists(const zend_string *key, uint64_t hash, time_t t, bool *is_there)
{
	struct cache_found found;
	shared_reading one;

	if (UNEXPECTED(!shared_read_begin(&one, (uint64_t) t, false))) {
		return false;
	}
	find_in(key, hash, t, &found);
	shared_read_end(&one);
	*is_there = found.row != 0;
	return true;
}

size_t apcu_read_many(apcu_looked_up *keys, size_t count, char *few, time_t t)
{
	uint64_t hashes[APCU_KEYS_AT_ONCE];
	shared_reading one;
	size_t done = 0, used = 0;
	bool is_plain = true;

	if (UNEXPECTED(apcu_is_recorded)) {
		return 0;
	}
	for (size_t i = 0; i < count; i++) {
		hashes[i] = apcu_hash_of(keys[i].key);
	}
	if (!shared_read_begin(&one, (uint64_t) t, true)) {
		return 0;
	}
	while (done < count && is_plain && shared_read_may_note(&one, (uint64_t) t)) {
		apcu_looked_up *key = &keys[done];
		struct cache_found found;

		find_in(key->key, hashes[done], t, &found);
		if (found.kind == CACHE_STR) {
			if (found.len > APCU_FEW_BYTES - used) {
				break;
			}
			key->bytes = few + used;
			used += found.len;
			apcu_copy_found(found.place, found.len, key->bytes);
			is_plain = apcu_is_plain(key->bytes, found.len);
			if (!is_plain && APCU_G(kept_size) > 0) {
				/* It may be kept. */
				break;
			}
		}
		shared_read_note(&one, found.row, (uint64_t) t);
		key->answer = (cache_answer) {found.kind, found.place, found.number, found.len};
		done++;
	}
	shared_read_end(&one);
	return done;
}

cache_answer apcu_look(zend_string *key, time_t t, shared_text *held, apcu_kept **kept)
{
	unsigned seat;
	cache_answer answer = shared_look((const uint8_t *) ZSTR_VAL(key), ZSTR_LEN(key), apcu_hash_of(key), (uint64_t) t, &seat);

	*kept = UNEXPECTED(APCU_G(kept_size) > 0) ? kept_of(key, answer.kind, answer.place, answer.len) : NULL;
	shared_hold_found(&answer, *kept ? CACHE_SEATS : seat, held);
	return answer;
}
