/* SPDX-License-Identifier: MIT */
/* The extension apcu: the functions, the class and the settings of APCu, over the cache of cache_c. */
#ifndef PHP_APCU_H
#define PHP_APCU_H

#ifdef HAVE_CONFIG_H
# include "config.h"
#endif

#include "php.h"
#include "shm.h"

#define PHP_APCU_EXTNAME "apcu"

/* The version of APCu that this extension corresponds to; ext-apcu of a composer.json is compared with it. */
#define PHP_APCU_VERSION "5.1.22"

/* The version of this extension itself. */
#define PHP_APCU_CACHE_VERSION CACHE_C_VERSION

ZEND_BEGIN_MODULE_GLOBALS(apcu)
	/* Settings, by their names in an ini file. */
	bool enabled;
	bool enable_cli;
	bool slam_defense;
	bool coredump_unmap;
	bool use_request_time;
	zend_long shm_segments;
	zend_long shm_size;
	zend_long entries_hint;
	zend_long gc_ttl;
	zend_long ttl;
	zend_long smart;
	char *mmap_file_mask;
	char *preload_path;
	char *serializer_name;
	char *record_dir;
	bool record_values;
	zend_long kept_size;
	zend_long record_size;

	time_t request_time;  /* 0: not known yet */
	pid_t entry_process;  /* the process that the next two are of */
	uint32_t entry_owned; /* the number of locks of apcu_entry that it owns */
	uint32_t entry_depth[APCU_ENTRY_GROUPS]; /* the number of its callbacks under each */
	uint32_t lengths[64]; /* lengths of long strings that were fetched, by their keys */
ZEND_END_MODULE_GLOBALS(apcu)

ZEND_EXTERN_MODULE_GLOBALS(apcu)
#define APCU_G(v) ZEND_MODULE_GLOBALS_ACCESSOR(apcu, v)

#if defined(ZTS) && defined(COMPILE_DL_APCU)
ZEND_TSRMLS_CACHE_EXTERN()
#endif

extern zend_module_entry apcu_module_entry;
#define phpext_apcu_ptr &apcu_module_entry

/* settings.c */

void apcu_settings_start(int type, int module_number);
void apcu_settings_stop(int type, int module_number);

/* The shape of a cache that the settings ask for. */
cache_shape apcu_settings_shape(void);

/* Whether core dumps contain the cache: if apc.coredump_unmap=0 is set, and not by default. A process
 * that dumps core keeps the lock until its dump is written. */
bool apcu_settings_is_dumped(void);

/* preload.c */

/* Stores each file NAME.data of the folder under its name, unless there is a row. */
void apcu_preload(const char *folder);

/* values.c */

/* A value as the cache keeps it. A string's last byte says what its bytes are; only the extension reads
 * it. */
typedef struct {
	uint32_t kind;       /* CACHE_NULL, CACHE_BOOL, CACHE_INT or CACHE_STR */
	uint64_t number;
	const char *bytes;
	size_t len;
	char eight[sizeof(double) + 1];
	zend_string *text;   /* the owner of the bytes, or null */
	unsigned char *data; /* the same, by another module */
} apcu_value;

/* Strings of at least this length may be stamped. It takes less time to copy a shorter one than to look it up. */
#define APCU_LONG_STRING (64 * 1024)

/* False if a value can't be stored; a warning or an exception says why. It may run PHP code. A long string is
 * copied to be stamped, an array is not. */
bool apcu_pack(apcu_value *out, zval *value, bool stamps_string);

/* A value that is already serialized. */
void apcu_pack_text(apcu_value *out, const char *text, size_t len);

void apcu_value_free(apcu_value *value);

/* The value of an answer, of a string by its bytes, which are overwritten. They may be those of `text`;
 * that is consumed in any case. `out` was a value before, or undefined. False if there is no value; then
 * `out` is null or unchanged. It may run PHP code. */
bool apcu_unpack(zval *out, const cache_answer *answer, char *bytes, zend_string *text);

/* A stamp and the mark: the last bytes of a stamped value. They begin at a word of the cache. */
#define APCU_TAIL (sizeof(uint64_t) + 1)

static inline bool apcu_may_have_stamp(uint64_t len)
{
	return len > sizeof(uint64_t) && len % sizeof(uint64_t) == 1;
}

/* The stamp of a value by its last bytes. No two stores of arrays or long strings have the same one; 0: there is none. */
uint64_t apcu_stamp_of(const uint8_t tail[APCU_TAIL]);

/* Whether the value of these bytes is made without PHP code: a string or a double. */
bool apcu_is_plain(const char *bytes, size_t len);

void apcu_serializers_start(int module_number);

/* Looks for apc.serializer among those that were registered, until it is found. */
void apcu_serializers_find(void);

/* Their names, with commas between. */
zend_string *apcu_serializers_names(void);

/* kept.c: values that this process has built of a row's bytes, and returns again */

typedef struct apcu_kept apcu_kept;

typedef struct {
	size_t entries; /* values that may be returned again */
	size_t bytes;   /* of memory, with values that wait for the request's end to be freed */
	uint64_t hits;  /* fetches that returned one */
} apcu_kept_counts;

/* Whether values are kept: if apc.kept_size is set, calls are not recorded, and PHP has no threads. */
bool apcu_keeps(void);

/* When a request starts: frees what was evicted before. */
void apcu_kept_start_request(void);

/* When all code of a request has ended: evicts the values that were not used for longest, if others lacked room. */
void apcu_kept_end_request(void);

/* When PHP stops, and no request has values any more. */
void apcu_kept_stop(void);

/* The kept value of the row of this key, or null, by the last bytes of the row's value. It may be called while the
 * lock or a lane is held: it takes no memory. The value stays until the request ends. */
apcu_kept *apcu_kept_find(zend_string *key, const uint8_t tail[APCU_TAIL]);

/* Outside of the lock: returns a kept value. */
void apcu_kept_use(zval *out, apcu_kept *kept);

/* Outside of the lock: keeps a value that was built of bytes with this stamp, if it is the second one of the stamp.
 * `value` is the kept one then. Objects, resources and references are not kept, nor what holds one. */
void apcu_kept_admit(zend_string *key, uint64_t stamp, zval *value);

apcu_kept_counts apcu_kept_count(void);

/* functions.c */

/* The second of a call, by apc.use_request_time. */
time_t apcu_time(void);

/* Whether the value was stored; an exclusive one is never stored over a live row. */
bool apcu_store_value(zend_string *key, zval *value, zend_long ttl, bool is_exclusive);
bool apcu_store_packed(zend_string *key, const apcu_value *value, time_t t, zend_long ttl, bool is_exclusive);
bool apcu_delete_key(const zend_string *key);

/* entry.c */

/* What a call of apcu_entry took: nothing, if its process is 0. */
typedef struct {
	pid_t process;
	uint32_t group;
} apcu_entry_lock;

/* Takes the lock around the callbacks of a key's group, once per process, however many callbacks are
 * nested. It may run PHP code. False if an exception was thrown, then nothing was taken; it may also leave
 * by a bailout. A callback that would never get the lock, because its owner waits for this process, runs without. */
bool apcu_entry_begin(zend_string *key, apcu_entry_lock *lock);

/* Releases it; in a forked child nothing, since the lock is still its parent's. */
void apcu_entry_end(const apcu_entry_lock *lock);

/* At the end of a request: releases the locks of callbacks that never returned. */
void apcu_entry_leave(void);

/* iterator.c */

void apcu_iterator_start(zend_class_entry *ce, int module_number);

/* Removes what an iterator still finds. False, and an error, if it is not initialised. */
bool apcu_iterator_delete(zval *object);

/* info.c */

/* Makes the names of a row's fields, once, when PHP starts. */
void apcu_info_start(void);

/* Rows that were listed under the lock, and the bytes of their keys one after another. */
typedef struct {
	cache_row *rows;
	size_t count, room;
	char *keys;
	size_t used, size;
	bool lacks_keys; /* there was no room for keys, rather than for rows */
} apcu_rows;

void apcu_rows_start(apcu_rows *list, size_t room, size_t size);
void apcu_rows_free(apcu_rows *list);

/* Under the lock: adds all rows of each slot from `slot` on, up to `end`, until there are `wanted` or more. The first
 * slot whose rows were not added; if there are fewer rows and it is not `end`, there was no room for its rows, and
 * apcu_rows_grow, outside the lock, makes more. */
uint32_t apcu_rows_add(apcu_rows *list, uint32_t slot, uint32_t end, size_t wanted);
void apcu_rows_grow(apcu_rows *list);

void apcu_info_print(void);

#endif
