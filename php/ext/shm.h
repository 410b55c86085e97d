/* SPDX-License-Identifier: MIT */
/* The memory that all processes of one fork share is capi/shared_cache.c's: a cache, and the lock around its calls.
 * Here is what PHP adds: its own part of that memory, with the locks around callbacks of apcu_entry, and fetches of
 * PHP strings. */
#ifndef APCU_SHM_H
#define APCU_SHM_H

#include <time.h>

#include "php.h"
#include "shared_host.h"

/* Keys are spread over this many groups for apcu_entry. */
#define APCU_ENTRY_GROUPS 64

/* PHP's part of the shared memory. */
typedef struct {
	_Atomic uint64_t stamps;    /* how many stamps were given to values; it continues in a cache that is made later */
	_Atomic uint64_t longest_entry; /* nanoseconds of the longest wait for a lock of apcu_entry */
	time_t start_time;          /* when the cache was made or cleared, or the last expunge happened */
	struct {
		zend_ulong hash;
		size_t len;
		time_t t;
		pid_t pid;
	} last;                     /* the last store: process and key; only for apc.slam_defense */
	struct {
		robust_lock lock;           /* one callback of apcu_entry for keys of this group at a time */
		_Atomic uint32_t waits_for; /* 1 + the group whose lock its owner waits for; 0: none */
	} entry[APCU_ENTRY_GROUPS];
} apcu_shared;

/* If there is a cache in this process (shared_at). */
static zend_always_inline apcu_shared *apcu_shm(void)
{
	return (apcu_shared *) shared_own();
}

/* Maps memory and makes an empty cache of a good shape in it, which core dumps contain or do not.
 * False if the system has no memory, or no lock that processes share: then nothing is mapped.
 * `bytes` is the requested size. */
bool apcu_shm_start(const cache_shape *shape, bool is_dumped, size_t *bytes);

/* Numbers for monitoring besides the cache's own counters, since the server started. */
typedef struct {
	cache_counts counts;
	time_t start_time;
	uint64_t remakes;       /* how often a process died in a call, and the cache was emptied */
	unsigned seats;         /* seats that are taken now */
	uint64_t longest;       /* nanoseconds of the longest wait for the lock, among those that slept */
	uint64_t longest_entry; /* the same for a lock of apcu_entry */
} apcu_state;

/* Under the lock. */
apcu_state apcu_shm_state(void);

/* Without the lock, and so out of date: how many rows there were a moment ago. 0 if there is no cache. */
size_t apcu_shm_rows(void);

/* Without the lock: notes how long this process waited for a lock of apcu_entry. */
void apcu_shm_note_entry_wait(uint64_t nanoseconds);

/* A number that no other call returns in any process, from 1 on. It needs no lock. */
uint64_t apcu_shm_stamp(void);

/* One event of the cache, between shared_lock and shared_unlock: there nothing may be called that can run PHP code, use
 * PHP's memory or leave by a bailout. The request has the hash of its key. */
static zend_always_inline cache_answer apcu_ask(const cache_request *request, const zend_string *key, const char *bytes,
	size_t len)
{
	return shared_ask(request, (const uint8_t *) ZSTR_VAL(key), ZSTR_LEN(key), (const uint8_t *) bytes, len);
}

struct apcu_kept;

/* Look-ups that other processes may make at the same time: in a lane, or with the lock. False if it was not done, as
 * there is no cache, or calls are recorded: then each is an event of its own. `hash` is that of the key. */

/* A string of at most this many bytes is copied on the stack first, and then into PHP's memory, which cannot be used in
 * a lane. */
#define APCU_FEW_BYTES 1024

/* A fetch. */
typedef struct {
	struct cache_found found;
	struct apcu_kept *kept;   /* the value is kept: no bytes are copied */
	char *bytes;              /* where a string's are; null: there is no room for it, and nothing was counted */
} apcu_seen;

/* `few` has room for APCU_FEW_BYTES; a longer string is copied to `text`, which may be null. `only_hits` counts no miss. */
bool apcu_read(zend_string *key, uint64_t hash, time_t t, bool only_hits, char *few, zend_string *text, apcu_seen *seen);

/* Whether a fetch finds the key. */
bool apcu_read_exists(const zend_string *key, uint64_t hash, time_t t, bool *is_there);

/* Keys of a list that are looked up in one lane. Their strings have APCU_FEW_BYTES together. */
#define APCU_KEYS_AT_ONCE 16

typedef struct {
	zend_string *key;
	cache_answer answer;
	char *bytes;
} apcu_looked_up;

/* Fetches at most APCU_KEYS_AT_ONCE: how many keys were looked up, from the first on. It stops before a string for which
 * there is no room, and after a value whose code might change the others. */
size_t apcu_read_many(apcu_looked_up *keys, size_t count, char *few, time_t t);

/* In a lane or under the lock: copies the bytes of a string that was found. */
static zend_always_inline void apcu_copy_found(uint32_t place, size_t len, char *out)
{
	memcpy(out, shared_at->words + place, len);
}

/* Whether PHP's hash of ASCII keys is the cache's. That of other keys differs if char has a sign. */
extern bool apcu_has_hash_of_php;

static zend_always_inline bool apcu_is_ascii(const zend_string *key)
{
	const char *bytes = ZSTR_VAL(key);
	size_t len = ZSTR_LEN(key);
	uint64_t all = 0, eight;

	if (len < sizeof eight) {
		for (size_t i = 0; i < len; i++) {
			all |= (unsigned char) bytes[i];
		}
	} else {
		for (size_t i = 0; i < len - sizeof eight; i += sizeof eight) {
			memcpy(&eight, bytes + i, sizeof eight);
			all |= eight;
		}
		memcpy(&eight, bytes + len - sizeof eight, sizeof eight);
		all |= eight;
	}
	return (all & UINT64_C(0x8080808080808080)) == 0;
}

/* The hash by which the cache knows a key. */
static zend_always_inline uint64_t apcu_hash_of(const zend_string *key)
{
	if (EXPECTED(apcu_has_hash_of_php && apcu_is_ascii(key))) {
		return zend_string_hash_val((zend_string *) key);
	}
	return cache_hash((const uint8_t *) ZSTR_VAL(key), ZSTR_LEN(key));
}

/* Strings of at least this length are not copied in a lane, but held; without lanes those of SHARED_HELD. From some
 * 3,000 bytes on a copy under the lock takes longer than a seat, even with one process. */
#define APCU_LANE_MOST 65536

static inline size_t apcu_lane_most(void)
{
	return shared_at->lock.is_mutex ? SHARED_HELD : APCU_LANE_MOST;
}

/* One event under the lock: a look-up. A long string that it finds is held, to be copied after the lock was released
 * (shared_let_go), except while many others are held, and if its value is kept. */
cache_answer apcu_look(zend_string *key, time_t t, shared_text *held, struct apcu_kept **kept);

#endif
