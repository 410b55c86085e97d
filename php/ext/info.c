/* SPDX-License-Identifier: MIT */
#include "php_apcu.h"

#include "ext/standard/info.h"

/* The names of a row's fields. They live as long as the module, so no call makes them. */
enum {
	NUM_SLOTS, TTL, NUM_HITS, NUM_MISSES, NUM_INSERTS, NUM_ENTRIES, EXPUNGES, START_TIME, MEM_SIZE, MEMORY_TYPE, MMAP,
	CACHE_LIST, DELETED_LIST, SLOT_DISTRIBUTION,
	REMAKES, SEATS_TAKEN, LONGEST_WAIT, LONGEST_ENTRY_WAIT, KEPT_ENTRIES, KEPT_SIZE, KEPT_HITS,
	INFO, HITS, ACCESS_TIME, MTIME, CREATION_TIME, DELETION_TIME, REFS, REF_COUNT,
	NUM_SEG, SEG_SIZE, AVAIL_MEM, BLOCK_LISTS, SIZE, OFFSET,
	NAMES
};
static zend_string *names[NAMES];

void apcu_info_start(void)
{
	static const char *const texts[NAMES] = {
		"num_slots", "ttl", "num_hits", "num_misses", "num_inserts", "num_entries", "expunges", "start_time", "mem_size",
		"memory_type", "mmap",
		"cache_list", "deleted_list", "slot_distribution",
		"remakes", "seats_taken", "longest_wait", "longest_entry_wait", "kept_entries", "kept_size", "kept_hits",
		"info", "hits", "access_time", "mtime", "creation_time", "deletion_time", "refs", "ref_count",
		"num_seg", "seg_size", "avail_mem", "block_lists", "size", "offset"
	};

	for (int i = 0; i < NAMES; i++) {
		names[i] = zend_string_init_interned(texts[i], strlen(texts[i]), true);
	}
}

/* An array with room for these members. */
static zend_always_inline void tell_start(zval *told, uint32_t members)
{
	array_init_size(told, members);
	zend_hash_real_init_mixed(Z_ARRVAL_P(told));
}

/* In an array that has room for it, and no such name yet. */
static zend_always_inline void tell(zval *told, int name, zval *value)
{
	ZEND_ASSERT(Z_ARRVAL_P(told)->nNumUsed < Z_ARRVAL_P(told)->nTableSize);
	_zend_hash_append_ex(Z_ARRVAL_P(told), names[name], value, true);
}

static zend_always_inline void tell_long(zval *told, int name, zend_long value)
{
	zval number;

	ZVAL_LONG(&number, value);
	tell(told, name, &number);
}

static zend_always_inline void tell_double(zval *told, int name, double value)
{
	zval number;

	ZVAL_DOUBLE(&number, value);
	tell(told, name, &number);
}

void apcu_rows_start(apcu_rows *list, size_t room, size_t size)
{
	list->rows = safe_emalloc(room, sizeof *list->rows, 0);
	list->room = room;
	list->count = 0;
	list->keys = emalloc(size);
	list->size = size;
	list->used = 0;
}

void apcu_rows_free(apcu_rows *list)
{
	efree(list->rows);
	efree(list->keys);
}

/* The number of slots that are listed before their keys are copied: then the processor's cache still has the rows. */
#define SLOTS_PER_LISTING 64

/* Under the lock: copies the keys of rows that follow those of the list, as far as there is room for all keys of a
 * slot. The number of these rows. */
static size_t copy_row_keys(apcu_rows *list, size_t count)
{
	const cache_row *first = list->rows + list->count, *row = first, *end = first + count;

	for (; row < end && row->key_len <= list->size - list->used; row++) {
		memcpy(list->keys + list->used, shared_at->words + row->key_place, row->key_len);
		list->used += row->key_len;
	}
	if (row < end) {
		for (; row > first && row[-1].slot == row->slot; row--) {
			list->used -= row[-1].key_len;
		}
	}
	return (size_t) (row - first);
}

uint32_t apcu_rows_add(apcu_rows *list, uint32_t slot, uint32_t end, size_t wanted)
{
	size_t most = wanted < list->room ? wanted : list->room;

	list->lacks_keys = false;
	while (slot < end && list->count < wanted) {
		uint32_t to = end - slot < SLOTS_PER_LISTING ? end : slot + SLOTS_PER_LISTING;
		cache_row *rows = list->rows + list->count;
		struct cache_listing listing;
		size_t copied;

		cache_list_slots(shared_at->cache, slot, to, rows, most - list->count, &listing);
		if (listing.next == slot) {
			/* With its rows there are more than are wanted. */
			cache_list_slots(shared_at->cache, slot, slot + 1, rows, list->room - list->count, &listing);
		}
		copied = copy_row_keys(list, (size_t) listing.count);
		list->count += copied;
		if (copied < listing.count) {
			list->lacks_keys = true;
			return rows[copied].slot;
		}
		if (listing.next == slot) {
			return slot;
		}
		slot = listing.next;
	}
	return slot;
}

void apcu_rows_grow(apcu_rows *list)
{
	if (list->lacks_keys) {
		list->keys = safe_erealloc(list->keys, list->size, 2, 0);
		list->size *= 2;
		return;
	}
	list->rows = safe_erealloc(list->rows, list->room, 2 * sizeof *list->rows, 0);
	list->room *= 2;
}

/* All rows of the cache at one moment, and the bytes of their keys one after another. */
typedef struct {
	cache_row *rows;
	size_t count;
	char *keys; /* by malloc: their size is known only under the lock */
	size_t used, size;
} all_rows;

/* Under the lock: adds the keys of the rows from all->count on. False if there is no memory for them. */
static bool copy_keys(all_rows *all, size_t count)
{
	const cache_row *row = all->rows + all->count, *end = row + count;
	size_t more = 0;

	for (const cache_row *at = row; at < end; at++) {
		more += at->key_len;
	}
	if (more > all->size - all->used) {
		size_t size = 2 * all->used + more;
		char *keys = realloc(all->keys, size);

		if (!keys) {
			return false;
		}
		all->keys = keys;
		all->size = size;
	}
	for (; row < end; row++) {
		memcpy(all->keys + all->used, shared_at->words + row->key_place, row->key_len);
		all->used += row->key_len;
	}
	all->count += count;
	return true;
}

/* Under the lock, with room for all rows. False if there is no memory for their keys. */
static bool copy_all(all_rows *all, size_t room)
{
	/* After the slots come the rows that were removed while a process copies them. */
	uint32_t end = shared_at->shape.slots + 1;
	struct cache_listing listing;

	for (uint32_t from = 0, to; from < end; from = to) {
		to = end - from < SLOTS_PER_LISTING ? end : from + SLOTS_PER_LISTING;
		cache_list_slots(shared_at->cache, from, to, all->rows + all->count, room - all->count, &listing);
		if (!copy_keys(all, (size_t) listing.count)) {
			return false;
		}
	}
	return true;
}

/* Room for this many rows. Each page is written here, so that none is allocated under the lock. */
static cache_row *room_for_rows(size_t room)
{
	cache_row *rows = safe_emalloc(room, sizeof *rows, 0);

	for (size_t i = 0; i < room; i += 4096 / sizeof *rows) {
		*(volatile uint32_t *) &rows[i].place = 0;
	}
	return rows;
}

/* Lists all rows, and the cache's state at the same moment. False if there is no cache. */
static bool list_all(all_rows *all, apcu_state *state)
{
	size_t most = apcu_shm_rows();
	bool is_copied = false;

	while (!is_copied) {
		/* More rows may be stored before the lock is taken. */
		size_t room = most + most / 16 + CACHE_SEATS;

		*all = (all_rows) {.rows = room_for_rows(room)};
		if (!shared_lock()) {
			efree(all->rows);
			return false;
		}
		*state = apcu_shm_state();
		most = (size_t) state->counts.entries;
		bool is_room = most + CACHE_SEATS <= room;
		is_copied = is_room && copy_all(all, room);
		shared_unlock();
		if (UNEXPECTED(!is_copied)) {
			efree(all->rows);
			free(all->keys);
		}
		if (UNEXPECTED(is_room && !is_copied)) {
			zend_error_noreturn(E_ERROR, "Out of memory (the keys of " ZEND_ULONG_FMT " rows)", (zend_ulong) all->count);
		}
	}
	return true;
}

static void tell_row(zval *told, const cache_row *row, const char *key)
{
	zval name;

	tell_start(told, 9);
	ZVAL_STRINGL(&name, key, row->key_len);
	tell(told, INFO, &name);
	tell_long(told, TTL, row->ttl);
	tell_double(told, NUM_HITS, (double) row->hits);
	tell_long(told, MTIME, (zend_long) row->mtime);
	tell_long(told, CREATION_TIME, (zend_long) row->ctime);
	tell_long(told, DELETION_TIME, (zend_long) row->dtime);
	tell_long(told, ACCESS_TIME, (zend_long) row->atime);
	tell_long(told, REF_COUNT, 0);
	tell_long(told, MEM_SIZE, (zend_long) row->size * 8);
}

static void tell_rows(zval *info, const all_rows *all)
{
	const cache_row *row = all->rows, *end = row + all->count;
	const char *key = all->keys;
	zval rows, removed, slots, told, *count = NULL;

	array_init_size(&rows, (uint32_t) all->count);
	array_init(&removed);
	array_init(&slots);
	zend_hash_real_init_packed(Z_ARRVAL(rows));
	ZEND_HASH_FILL_PACKED(Z_ARRVAL(rows)) {
		for (; row < end && row->slot < shared_at->shape.slots; row++) {
			tell_row(&told, row, key);
			key += row->key_len;
			ZEND_HASH_FILL_ADD(&told);

			/* Rows of a slot are listed one after another. */
			if (row > all->rows && row->slot == row[-1].slot) {
				Z_LVAL_P(count)++;
			} else {
				zval one;

				ZVAL_LONG(&one, 1);
				count = zend_hash_index_add_new(Z_ARRVAL(slots), row->slot, &one);
			}
		}
	} ZEND_HASH_FILL_END();
	for (; row < end; row++) {
		tell_row(&told, row, key);
		key += row->key_len;
		zend_hash_next_index_insert_new(Z_ARRVAL(removed), &told);
	}
	tell(info, CACHE_LIST, &rows);
	tell(info, DELETED_LIST, &removed);
	tell(info, SLOT_DISTRIBUTION, &slots);
}

PHP_FUNCTION(apcu_cache_info)
{
	bool is_limited = false, is_there;
	apcu_kept_counts kept;
	apcu_state state;
	all_rows all;
	zval memory_type;

	ZEND_PARSE_PARAMETERS_START(0, 1)
		Z_PARAM_OPTIONAL
		Z_PARAM_BOOL(is_limited)
	ZEND_PARSE_PARAMETERS_END();

	if (is_limited) {
		is_there = shared_lock();
		if (is_there) {
			state = apcu_shm_state();
			shared_unlock();
		}
	} else {
		is_there = list_all(&all, &state);
	}
	if (!is_there) {
		php_error_docref(NULL, E_WARNING, "No APC info available.  Perhaps APC is not enabled? Check apc.enabled in your ini file");
		RETURN_FALSE;
	}

	tell_start(return_value, 20);
	tell_long(return_value, NUM_SLOTS, shared_at->shape.slots);
	tell_long(return_value, TTL, shared_at->shape.ttl);
	tell_double(return_value, NUM_HITS, (double) state.counts.hits);
	tell_double(return_value, NUM_MISSES, (double) state.counts.misses);
	tell_double(return_value, NUM_INSERTS, (double) state.counts.inserts);
	tell_long(return_value, NUM_ENTRIES, (zend_long) state.counts.entries);
	tell_double(return_value, EXPUNGES, (double) state.counts.expunges);
	tell_long(return_value, START_TIME, (zend_long) state.start_time);
	tell_double(return_value, MEM_SIZE, (double) state.counts.row_words * 8);
	ZVAL_INTERNED_STR(&memory_type, names[MMAP]);
	tell(return_value, MEMORY_TYPE, &memory_type);
	if (!is_limited) {
		zend_try {
			tell_rows(return_value, &all);
		} zend_catch {
			free(all.keys);
			zend_bailout();
		} zend_end_try();
		efree(all.rows);
		free(all.keys);
	}

	/* Members that APCu has not. */
	kept = apcu_kept_count();
	tell_long(return_value, REMAKES, (zend_long) state.remakes);
	tell_long(return_value, SEATS_TAKEN, state.seats);
	tell_double(return_value, LONGEST_WAIT, (double) state.longest / 1e9);
	tell_double(return_value, LONGEST_ENTRY_WAIT, (double) state.longest_entry / 1e9);
	tell_long(return_value, KEPT_ENTRIES, (zend_long) kept.entries);
	tell_double(return_value, KEPT_SIZE, (double) kept.bytes);
	tell_double(return_value, KEPT_HITS, (double) kept.hits);
}

PHP_FUNCTION(apcu_key_info)
{
	zend_string *key;
	cache_row row = {0};

	ZEND_PARSE_PARAMETERS_START(1, 1)
		Z_PARAM_STR(key)
	ZEND_PARSE_PARAMETERS_END();

	if (shared_lock()) {
		/* At the second 0 no row has expired: those that no fetch finds are listed too. */
		row = cache_find_row(shared_at->cache, (const uint8_t *) ZSTR_VAL(key), ZSTR_LEN(key), 0);
		shared_unlock();
	}
	if (row.place == 0) {
		RETURN_NULL();
	}
	tell_start(return_value, 7);
	tell_long(return_value, HITS, (zend_long) row.hits);
	tell_long(return_value, ACCESS_TIME, (zend_long) row.atime);
	tell_long(return_value, MTIME, (zend_long) row.mtime);
	tell_long(return_value, CREATION_TIME, (zend_long) row.ctime);
	tell_long(return_value, DELETION_TIME, (zend_long) row.dtime);
	tell_long(return_value, TTL, row.ttl);
	tell_long(return_value, REFS, 0);
}

/* All gaps at one moment. The counters have the number of free words, so there are never more gaps than
 * these; what is allocated here is far less, and grows if necessary. */
static bool list_gaps(cache_gap **gaps, size_t *count, cache_counts *counts)
{
	for (size_t room = 256;; room *= 2) {
		*gaps = safe_emalloc(room, sizeof **gaps, 0);
		if (!shared_lock()) {
			efree(*gaps);
			return false;
		}
		*counts = cache_get_counts(shared_at->cache);
		*count = (size_t) cache_list_gaps(shared_at->cache, 0, *gaps, room);
		shared_unlock();
		if (*count < room) {
			return true;
		}
		efree(*gaps);
	}
}

PHP_FUNCTION(apcu_sma_info)
{
	bool is_limited = false, is_there;
	cache_counts counts;
	cache_gap *gaps = NULL;
	size_t count = 0;

	ZEND_PARSE_PARAMETERS_START(0, 1)
		Z_PARAM_OPTIONAL
		Z_PARAM_BOOL(is_limited)
	ZEND_PARSE_PARAMETERS_END();

	if (is_limited) {
		is_there = shared_lock();
		if (is_there) {
			counts = cache_get_counts(shared_at->cache);
			shared_unlock();
		}
	} else {
		is_there = list_gaps(&gaps, &count, &counts);
	}
	if (!is_there) {
		php_error_docref(NULL, E_WARNING, "No APC SMA info available.  Perhaps APC is disabled via apc.enabled?");
		RETURN_FALSE;
	}

	tell_start(return_value, 4);
	tell_long(return_value, NUM_SEG, shared_at->shape.segments);
	tell_double(return_value, SEG_SIZE, (double) shared_at->shape.words * 8);
	tell_double(return_value, AVAIL_MEM, (double) counts.free_words * 8);
	if (is_limited) {
		return;
	}

	zval segments, blocks;

	array_init(&segments);
	array_init_size(&blocks, (uint32_t) count);
	for (size_t i = 0; i < count; i++) {
		zval block;

		tell_start(&block, 2);
		tell_long(&block, SIZE, (zend_long) gaps[i].size * 8);
		tell_long(&block, OFFSET, (zend_long) gaps[i].place * 8);
		add_next_index_zval(&blocks, &block);
	}
	efree(gaps);
	add_next_index_zval(&segments, &blocks);
	tell(return_value, BLOCK_LISTS, &segments);
}

static void print_kept(void)
{
	apcu_kept_counts kept = apcu_kept_count();
	char text[3 * (MAX_LENGTH_OF_LONG + 1) + 64];

	if (!apcu_keeps()) {
		php_info_print_table_row(2, "Kept Values", "Disabled");
		return;
	}
	snprintf(text, sizeof text, "%zu of %zu bytes, with " ZEND_ULONG_FMT " hits, in this process", kept.entries, kept.bytes,
		(zend_ulong) kept.hits);
	php_info_print_table_row(2, "Kept Values", text);
}

void apcu_info_print(void)
{
	php_info_print_table_start();
	php_info_print_table_row(2, "APCu Support", shared_at ? "Enabled" : "Disabled");
	php_info_print_table_row(2, "Version", PHP_APCU_VERSION);
	php_info_print_table_row(2, "Cache", "Yilumbaso");
	php_info_print_table_row(2, "Cache Version", PHP_APCU_CACHE_VERSION);
	php_info_print_table_row(2, "APCu Debugging", "Disabled");
	php_info_print_table_row(2, "MMAP Support", "Enabled");
	php_info_print_table_row(2, "MMAP File Mask", APCU_G(mmap_file_mask));
	if (shared_at) {
		zend_string *names = apcu_serializers_names();
		char remade[MAX_LENGTH_OF_LONG + 1];

		php_info_print_table_row(2, "Serialization Support", ZSTR_VAL(names));
		zend_string_release(names);
		snprintf(remade, sizeof remade, ZEND_ULONG_FMT, (zend_ulong) shared_get_deaths().inside);
		php_info_print_table_row(2, "Cache Recreated After Crash", remade);
		print_kept();
	} else {
		php_info_print_table_row(2, "Serialization Support", "Disabled");
	}
	php_info_print_table_row(2, "Build Date", __DATE__ " " __TIME__);
	php_info_print_table_end();
}
