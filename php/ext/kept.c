/* SPDX-License-Identifier: MIT */
/* Kept values: arrays and long strings that a process has built of a row's bytes, and returns again as long as the
 * row has the same stamp.
 *
 * A kept value is laid out as opcache lays out the constants of a script: immutable arrays, and interned strings
 * that are in no table. PHP reads it in place, and copies a part before it changes it. It is in the process's own
 * memory, in one block that is written once; no other process sees it, and a forked child has its own copy.
 *
 * During a request no block is freed, since variables may refer to it. An evicted one is freed when the next request
 * starts: then all memory of the request before has been freed. */
#include "php_apcu.h"
#include "record.h"

#ifdef APCU_KEPT_READ_ONLY
# include <sys/mman.h>
#endif

#ifdef ZTS

/* The table of kept values would have to be the thread's. */

bool apcu_keeps(void)
{
	return false;
}

void apcu_kept_start_request(void)
{
}

void apcu_kept_end_request(void)
{
}

void apcu_kept_stop(void)
{
}

apcu_kept *apcu_kept_find(zend_string *key, const uint8_t tail[APCU_TAIL])
{
	return NULL;
}

void apcu_kept_use(zval *out, apcu_kept *kept)
{
}

void apcu_kept_admit(zend_string *key, uint64_t stamp, zval *value)
{
}

apcu_kept_counts apcu_kept_count(void)
{
	return (apcu_kept_counts) {0};
}

#else

/* Values with more levels of arrays are not kept. */
#define MOST_LEVELS 512

/* Chains of the table; its entries are found by the hash of their key. */
#define CHAINS 4096

/* How many stamps are remembered. Stamps are consecutive numbers, so those of one time are remembered together. */
#define SEEN 4096

struct apcu_kept {
	apcu_kept *next;          /* in its chain, or of those that were evicted */
	apcu_kept *newer, *older; /* by last use */
	uint64_t stamp;
	uint64_t request;         /* the number of the request that used it last */
	zend_ulong hash;          /* of the key */
	size_t key_len;
	size_t size;              /* of the block */
	size_t bytes;             /* of the block and of this entry */
	void *block;              /* begins with a zend_array, or with a zend_string */
	bool is_array;
	char key[];
};

static struct {
	apcu_kept *chains[CHAINS];
	apcu_kept *newest, *oldest;
	apcu_kept *evicted;
	uint64_t request;         /* a number of the request */
	uint64_t hits;
	size_t count;             /* of entries in the table */
	size_t bytes;             /* of these entries and of the evicted ones */
	size_t evicted_bytes;
	size_t wanted;            /* bytes that this request's values lacked */
} all;

/* The stamps of fetched values, each at the place of its number. The first fetch of a stamp notes it, and the second
 * one keeps the value. */
static struct {
	uint64_t stamp;
	uint32_t refused; /* 0, NEVER_KEPT, or the request in which there was no room for its value */
} seen[SEEN];

#define NEVER_KEPT UINT32_MAX

bool apcu_keeps(void)
{
	return APCU_G(kept_size) > 0 && !apcu_is_recorded;
}

static size_t most_bytes(void)
{
	return APCU_G(kept_size) > 0 ? (size_t) APCU_G(kept_size) : 0;
}

/* The number of this request as `refused` has it. */
static uint32_t this_request(void)
{
	return (uint32_t) (all.request % (NEVER_KEPT - 1)) + 1;
}

/* Blocks. In a build for checks they are pages of their own, and a write to one after it was closed is a SIGSEGV. */

#ifdef APCU_KEPT_READ_ONLY

static void *make_block(size_t size)
{
	void *at = mmap(NULL, size, PROT_READ | PROT_WRITE, MAP_PRIVATE | MAP_ANONYMOUS, -1, 0);

	return at == MAP_FAILED ? NULL : at;
}

static void close_block(void *at, size_t size)
{
	mprotect(at, size, PROT_READ);
}

static void free_block(void *at, size_t size)
{
	munmap(at, size);
}

#else

static void *make_block(size_t size)
{
	return calloc(1, size);
}

static void close_block(void *at, size_t size)
{
}

static void free_block(void *at, size_t size)
{
	free(at);
}

#endif

/* Writing a block. The first pass computes its size: `at` is null in it. The second pass writes, and takes no memory
 * of PHP's, so no bailout can lose the block. Both passes visit the value in the same order. */

typedef struct {
	const zend_refcounted *from; /* null: the place is free */
	size_t place;
} part;

typedef struct {
	char *at;
	size_t used;
	size_t most;   /* no block is larger */
	part *parts;   /* strings by their bytes, and arrays with several references: each is written once */
	size_t count, room;
} block;

/* The place of `size` bytes of the block. */
static size_t take(block *to, size_t size)
{
	size_t place = to->used;

	to->used += (size + 7) & ~(size_t) 7;
	return place;
}

static zend_ulong hash_of(const zend_refcounted *from)
{
	/* A string of the block has its hash: PHP could not write it later. */
	return GC_TYPE(from) == IS_STRING ? zend_string_hash_val((zend_string *) from) : (zend_ulong) (uintptr_t) from >> 4;
}

static bool is_same(const zend_refcounted *a, const zend_refcounted *b)
{
	return a == b || (GC_TYPE(a) == IS_STRING && GC_TYPE(b) == IS_STRING
		&& zend_string_equals((zend_string *) a, (zend_string *) b));
}

static part *place_of(const block *to, const zend_refcounted *from)
{
	size_t i = hash_of(from) & (to->room - 1);

	while (to->parts[i].from && !is_same(to->parts[i].from, from)) {
		i = (i + 1) & (to->room - 1);
	}
	return &to->parts[i];
}

/* Doubles the room for parts. False if there is no memory. */
static bool grow(block *to)
{
	block more = *to;

	more.room = to->room == 0 ? 64 : 2 * to->room;
	more.parts = calloc(more.room, sizeof *more.parts);
	if (!more.parts) {
		return false;
	}
	for (size_t i = 0; i < to->room; i++) {
		if (to->parts[i].from) {
			*place_of(&more, to->parts[i].from) = to->parts[i];
		}
	}
	free(to->parts);
	*to = more;
	return true;
}

typedef enum {
	NEW_PART,    /* to be written at its place now */
	WRITTEN_PART,
	NO_PART      /* memory is missing */
} part_state;

static part_state find_part(block *to, const zend_refcounted *from, size_t *place)
{
	if (!to->at && to->count >= to->room / 2 && !grow(to)) {
		return NO_PART;
	}

	part *found = place_of(to, from);
	if (!found->from) {
		found->from = from;
		found->place = to->used;
		to->count++;
	}
	*place = found->place;
	return found->place == to->used ? NEW_PART : WRITTEN_PART;
}

static bool put_string(block *to, zend_string *from, size_t *place)
{
	part_state state = find_part(to, (zend_refcounted *) from, place);

	if (state != NEW_PART) {
		return state == WRITTEN_PART;
	}
	take(to, _ZSTR_STRUCT_SIZE(ZSTR_LEN(from)));
	if (to->at) {
		zend_string *text = (zend_string *) (to->at + *place);

		GC_SET_REFCOUNT(text, 2);
		/* Not IS_STR_PERMANENT: the table of compiled patterns has permanent strings as keys beyond the request. */
		GC_TYPE_INFO(text) = GC_STRING | (IS_STR_INTERNED << GC_FLAGS_SHIFT);
		ZSTR_H(text) = zend_string_hash_val(from);
		ZSTR_LEN(text) = ZSTR_LEN(from);
		memcpy(ZSTR_VAL(text), ZSTR_VAL(from), ZSTR_LEN(from) + 1);
	}
	return to->used <= to->most;
}

static bool put_array(block *to, HashTable *from, size_t *place, int levels);

/* Writes a value at the place of a zval. False if it can't be in a block, or if that would be too large. */
static bool put_value(block *to, size_t place, zval *from, int levels)
{
	zval *at = to->at ? (zval *) (to->at + place) : NULL;
	size_t part;

	if (Z_ISREF_P(from)) {
		if (Z_REFCOUNT_P(from) > 1) {
			return false;
		}
		from = Z_REFVAL_P(from);
	}
	switch (Z_TYPE_P(from)) {
		case IS_UNDEF:
		case IS_NULL:
		case IS_FALSE:
		case IS_TRUE:
			if (at) {
				Z_TYPE_INFO_P(at) = Z_TYPE_P(from);
			}
			return true;
		case IS_LONG:
		case IS_DOUBLE:
			if (at) {
				ZVAL_COPY_VALUE(at, from);
			}
			return true;
		case IS_STRING:
			if (!put_string(to, Z_STR_P(from), &part)) {
				return false;
			}
			if (at) {
				ZVAL_INTERNED_STR(at, (zend_string *) (to->at + part));
			}
			return true;
		case IS_ARRAY:
			if (levels == 0 || !put_array(to, Z_ARRVAL_P(from), &part, levels - 1)) {
				return false;
			}
			if (at) {
				ZVAL_ARR(at, (zend_array *) (to->at + part));
				Z_TYPE_INFO_P(at) = IS_ARRAY;
			}
			return true;
		default:
			return false;
	}
}

/* The size of a table for `count` members. */
static uint32_t table_size(uint32_t count)
{
	uint32_t size = HT_MIN_SIZE;

	while (size < count) {
		size *= 2;
	}
	return size;
}

static void put_head(zend_array *to, const HashTable *from, bool is_list, uint32_t used, uint32_t mask, void *data)
{
	GC_SET_REFCOUNT(to, 2);
	GC_TYPE_INFO(to) = GC_ARRAY | (GC_IMMUTABLE << GC_FLAGS_SHIFT);
	HT_FLAGS(to) = HASH_FLAG_STATIC_KEYS | (used == 0 ? HASH_FLAG_UNINITIALIZED : is_list ? HASH_FLAG_PACKED : 0);
	to->nTableMask = mask;
	HT_SET_DATA_ADDR(to, data);
	to->nNumUsed = used;
	to->nNumOfElements = from->nNumOfElements;
	to->nTableSize = table_size(used);
	to->nInternalPointer = 0;
	to->nNextFreeElement = from->nNextFreeElement;
	to->pDestructor = NULL;
	memset(data, 0xff, HT_HASH_SIZE(mask));
}

#if PHP_VERSION_ID >= 80200
# define PACKED_SIZE sizeof(zval)
# define PACKED_VALUE(array, i) ((array)->arPacked + (i))
#else
# define PACKED_SIZE sizeof(Bucket)
# define PACKED_VALUE(array, i) (&(array)->arData[i].val)
#endif

static bool put_element(block *to, size_t first, uint32_t i, zval *value, int levels)
{
	size_t place = first + i * PACKED_SIZE;

#if PHP_VERSION_ID < 80200
	if (to->at) {
		((Bucket *) (to->at + place))->h = i;
	}
#endif
	return put_value(to, place, value, levels);
}

/* Values without their keys; those of a packed array with its holes. */
static bool put_list(block *to, HashTable *from, size_t first, int levels)
{
	uint32_t i = 0;
	zval *value;

	if (HT_FLAGS(from) & HASH_FLAG_PACKED) {
		while (i < from->nNumUsed && put_element(to, first, i, PACKED_VALUE(from, i), levels)) {
			i++;
		}
		return i == from->nNumUsed;
	}
	ZEND_HASH_FOREACH_VAL(from, value) {
		if (!put_element(to, first, i++, value, levels)) {
			return false;
		}
	} ZEND_HASH_FOREACH_END();
	return true;
}

static bool put_map(block *to, HashTable *from, size_t first, uint32_t mask, int levels)
{
	uint32_t i = 0;
	zend_ulong h;
	zend_string *key;
	zval *member;

	ZEND_HASH_FOREACH_KEY_VAL(from, h, key, member) {
		size_t place = first + i * sizeof(Bucket), name = 0;

		if ((key && !put_string(to, key, &name)) || !put_value(to, place, member, levels)) {
			return false;
		}
		if (to->at) {
			Bucket *bucket = (Bucket *) (to->at + place);

			bucket->h = key ? zend_string_hash_val(key) : h;
			bucket->key = key ? (zend_string *) (to->at + name) : NULL;

			uint32_t *chain = &HT_HASH_EX(to->at + first, (uint32_t) bucket->h | mask);
			Z_NEXT(bucket->val) = *chain;
			*chain = HT_IDX_TO_HASH(i);
		}
		i++;
	} ZEND_HASH_FOREACH_END();
	return true;
}

static bool put_array(block *to, HashTable *from, size_t *place, int levels)
{
	/* Serializers build a list as a map, which takes more than twice as much. */
	bool is_packed = HT_FLAGS(from) & HASH_FLAG_PACKED, is_list = is_packed || zend_array_is_list(from);
	uint32_t used = is_packed ? from->nNumUsed : from->nNumOfElements;
	uint32_t mask = is_list || used == 0 ? HT_MIN_MASK : HT_SIZE_TO_MASK(table_size(used));

	*place = to->used;
	if ((GC_FLAGS(from) & GC_IMMUTABLE) || GC_REFCOUNT(from) > 1) {
		part_state state = find_part(to, (zend_refcounted *) from, place);

		if (state != NEW_PART) {
			return state == WRITTEN_PART;
		}
	}
	take(to, sizeof(zend_array));

	size_t data = take(to, HT_HASH_SIZE(mask) + used * (is_list ? PACKED_SIZE : sizeof(Bucket)));
	size_t first = data + HT_HASH_SIZE(mask);
	if (to->used > to->most) {
		return false;
	}
	if (to->at) {
		put_head((zend_array *) (to->at + *place), from, is_list, used, mask, to->at + data);
	}
	return is_list ? put_list(to, from, first, levels) : put_map(to, from, first, mask, levels);
}

static bool put(block *to, zval *value)
{
	size_t place;

	to->used = 0;
	return Z_TYPE_P(value) == IS_STRING ? put_string(to, Z_STR_P(value), &place)
		: put_array(to, Z_ARRVAL_P(value), &place, MOST_LEVELS);
}

/* The table. */

static apcu_kept **chain_of(zend_ulong hash)
{
	return &all.chains[hash % CHAINS];
}

static apcu_kept *find(const zend_string *key, zend_ulong hash)
{
	apcu_kept *one = *chain_of(hash);

	while (one && (one->hash != hash || one->key_len != ZSTR_LEN(key) || memcmp(one->key, ZSTR_VAL(key), one->key_len) != 0)) {
		one = one->next;
	}
	return one;
}

static void link_newest(apcu_kept *one)
{
	one->request = all.request;
	one->newer = NULL;
	one->older = all.newest;
	*(all.newest ? &all.newest->newer : &all.oldest) = one;
	all.newest = one;
}

static void unlink_use(apcu_kept *one)
{
	*(one->newer ? &one->newer->older : &all.newest) = one->older;
	*(one->older ? &one->older->newer : &all.oldest) = one->newer;
}

static void add(apcu_kept *one)
{
	apcu_kept **chain = chain_of(one->hash);

	one->next = *chain;
	*chain = one;
	link_newest(one);
	all.count++;
	all.bytes += one->bytes;
}

static void evict(apcu_kept *one)
{
	apcu_kept **at = chain_of(one->hash);

	while (*at != one) {
		at = &(*at)->next;
	}
	*at = one->next;
	unlink_use(one);
	all.count--;
	one->next = all.evicted;
	all.evicted = one;
	all.evicted_bytes += one->bytes;
}

static void free_evicted(void)
{
	while (all.evicted) {
		apcu_kept *one = all.evicted;

		all.evicted = one->next;
		free_block(one->block, one->size);
		free(one);
	}
	all.bytes -= all.evicted_bytes;
	all.evicted_bytes = 0;
}

void apcu_kept_start_request(void)
{
	free_evicted();
	all.request++;
	all.wanted = 0;
}

void apcu_kept_end_request(void)
{
	size_t most = most_bytes();

	/* What this request used stays: values that do not fit together would otherwise evict one another in each request. */
	while (all.wanted > 0 && all.oldest && all.oldest->request != all.request
			&& all.bytes - all.evicted_bytes + all.wanted > most) {
		evict(all.oldest);
	}
}

void apcu_kept_stop(void)
{
	while (all.oldest) {
		evict(all.oldest);
	}
	free_evicted();
	/* The stamps of another mapping begin with the same numbers. */
	memset(seen, 0, sizeof seen);
}

apcu_kept *apcu_kept_find(zend_string *key, const uint8_t tail[APCU_TAIL])
{
	uint64_t stamp = apcu_stamp_of(tail);
	apcu_kept *one = stamp != 0 && all.count > 0 ? find(key, zend_string_hash_val(key)) : NULL;

	return one && one->stamp == stamp ? one : NULL;
}

static void set(zval *out, const apcu_kept *kept)
{
	if (kept->is_array) {
		ZVAL_ARR(out, (zend_array *) kept->block);
		Z_TYPE_INFO_P(out) = IS_ARRAY;
	} else {
		ZVAL_INTERNED_STR(out, (zend_string *) kept->block);
	}
}

void apcu_kept_use(zval *out, apcu_kept *kept)
{
	/* An entry that this request used can't be evicted at its end, so their order does not matter. */
	if (kept->request != all.request) {
		unlink_use(kept);
		link_newest(kept);
	}
	all.hits++;
	set(out, kept);
}

/* An entry that is not in the table yet. Null if the value can't be kept; then `refused` says for how long. */
static apcu_kept *make(zend_string *key, uint64_t stamp, zval *value, uint32_t *refused)
{
	size_t most = most_bytes(), own = sizeof(apcu_kept) + ZSTR_LEN(key);
	block to = {.most = most > own ? most - own : 0};
	apcu_kept *one = NULL;

	*refused = NEVER_KEPT;
	if (!grow(&to) || !put(&to, value)) {
		free(to.parts);
		return NULL;
	}

	size_t size = to.used, bytes = own + size;
	if (bytes > most - MIN(most, all.bytes)) {
		*refused = this_request();
		all.wanted = MIN(most, all.wanted + bytes);
	} else if ((one = malloc(own)) && (to.at = make_block(size))) {
		*refused = 0;
		put(&to, value);
		close_block(to.at, size);
		one->stamp = stamp;
		one->hash = zend_string_hash_val(key);
		one->key_len = ZSTR_LEN(key);
		one->size = size;
		one->bytes = bytes;
		one->block = to.at;
		one->is_array = Z_TYPE_P(value) == IS_ARRAY;
		memcpy(one->key, ZSTR_VAL(key), ZSTR_LEN(key));
	} else {
		free(one);
		one = NULL;
	}
	free(to.parts);
	return one;
}

void apcu_kept_admit(zend_string *key, uint64_t stamp, zval *value)
{
	uint64_t *last = &seen[stamp % SEEN].stamp;
	uint32_t *refused = &seen[stamp % SEEN].refused;

	if (*last != stamp) {
		*last = stamp;
		*refused = 0;
		return;
	}
	if (*refused == NEVER_KEPT || *refused == this_request()
			|| (Z_TYPE_P(value) != IS_ARRAY && Z_TYPE_P(value) != IS_STRING)) {
		return;
	}
	/* What a preloaded script refers to is used by requests of other processes. */
	if (CG(compiler_options) & ZEND_COMPILE_PRELOAD) {
		return;
	}

	/* The stamp of a row is never used again once the row has another one. */
	apcu_kept *before = find(key, zend_string_hash_val(key));
	if (before) {
		evict(before);
	}

	apcu_kept *one = make(key, stamp, value, refused);
	if (one) {
		add(one);
		zval_ptr_dtor(value);
		set(value, one);
	}
}

apcu_kept_counts apcu_kept_count(void)
{
	return (apcu_kept_counts) {.entries = all.count, .bytes = all.bytes, .hits = all.hits};
}

#endif
