/* SPDX-License-Identifier: MIT */
#include "php_apcu.h"

#include "ext/pcre/php_pcre.h"
#include "zend_interfaces.h"

enum { LIST_ACTIVE = 1, LIST_DELETED = 2 };

enum {
	ITER_TYPE = 1 << 0,
	ITER_KEY = 1 << 1,
	ITER_VALUE = 1 << 2,
	ITER_NUM_HITS = 1 << 3,
	ITER_MTIME = 1 << 4,
	ITER_CTIME = 1 << 5,
	ITER_DTIME = 1 << 6,
	ITER_ATIME = 1 << 7,
	ITER_REFCOUNT = 1 << 8,
	ITER_MEM_SIZE = 1 << 9,
	ITER_TTL = 1 << 10
};

#define ITER_ALL 0xffffffffL
#define DEFAULT_CHUNK 100

/* The rows and slots that are listed before other processes may take the lock. */
#define ROWS_PER_LOCK 1024
#define SLOTS_PER_LOCK 8192

/* Room for rows of a chunk, before it grows. */
#define ROWS_AT_START 256

typedef struct {
	zend_string *key;
	zval told;
} apcu_item;

typedef struct {
	bool is_ready;       /* its constructor was called and did not fail */
	zend_long format;
	size_t chunk_size;
	zend_string *regex;  /* null: any key */
	HashTable *keys;     /* null: any key */
	uint32_t slot, end;  /* slots that are still to be listed */
	size_t listed, kept; /* rows of this walk, and those of them that matched */
	apcu_item *items;    /* the chunk, and how far it was returned */
	size_t count, at;
	bool has_totals;
	zend_long hits, total;
	size_t size;
	zend_object object;
} apcu_iterator;

static zend_class_entry *iterator_ce;
static zend_object_handlers iterator_handlers;

/* Names of the fields of an item. */
static struct {
	zend_string *type, *user, *key, *value, *num_hits, *mtime, *creation_time, *deletion_time, *access_time,
		*ref_count, *mem_size, *ttl;
} names;

static apcu_iterator *iterator_of(zend_object *object)
{
	return (apcu_iterator *) ((char *) object - XtOffsetOf(apcu_iterator, object));
}

static zend_object *create(zend_class_entry *ce)
{
	apcu_iterator *it = zend_object_alloc(sizeof *it, ce);

	zend_object_std_init(&it->object, ce);
	object_properties_init(&it->object, ce);
	it->object.handlers = &iterator_handlers;
	return &it->object;
}

static void free_items(apcu_item *items, size_t count)
{
	for (size_t i = 0; i < count; i++) {
		zend_string_release(items[i].key);
		zval_ptr_dtor(&items[i].told);
	}
	if (items) {
		efree(items);
	}
}

static void drop_chunk(apcu_iterator *it)
{
	apcu_item *items = it->items;
	size_t count = it->count;

	/* Destructors may call the iterator. */
	it->items = NULL;
	it->count = it->at = 0;
	free_items(items, count);
}

static void drop_search(apcu_iterator *it)
{
	if (it->regex) {
		zend_string_release(it->regex);
		it->regex = NULL;
	}
	if (it->keys) {
		zend_array_release(it->keys);
		it->keys = NULL;
	}
}

static void free_object(zend_object *object)
{
	apcu_iterator *it = iterator_of(object);

	drop_chunk(it);
	drop_search(it);
	zend_object_std_dtor(object);
}

/* Lists whole slots from it->slot on, until there are `wanted` rows. False if there is no row left. */
static bool list_some(apcu_iterator *it, apcu_rows *list, size_t wanted)
{
	while (it->slot < it->end) {
		uint32_t end = it->end - it->slot < SLOTS_PER_LOCK ? it->end : it->slot + SLOTS_PER_LOCK;

		list->count = list->used = 0;
		if (!shared_lock()) {
			it->slot = it->end;
			return false;
		}
		it->slot = apcu_rows_add(list, it->slot, end, wanted);
		shared_unlock();
		if (list->count > 0) {
			return true;
		}
		if (it->slot < end) {
			apcu_rows_grow(list);
		}
	}
	return false;
}

static bool lives(const cache_row *row, time_t t)
{
	return row->ttl == 0 || row->ctime + row->ttl >= (uint64_t) t;
}

/* Whether keys are tested. Runs no PHP code. */
typedef struct {
	HashTable *keys;
	pcre2_code *code;
	pcre2_match_data *data;
} search;

static bool search_start(search *s, const apcu_iterator *it)
{
	s->keys = it->keys;
	s->code = NULL;
	s->data = NULL;
	if (it->regex) {
		pcre_cache_entry *entry = pcre_get_compiled_regex_cache(it->regex);

		if (!entry) {
			return false;
		}
		s->code = php_pcre_pce_re(entry);
		s->data = php_pcre_create_match_data(0, s->code);
	}
	return true;
}

static void search_end(search *s)
{
	if (s->data) {
		php_pcre_free_match_data(s->data);
	}
}

static bool matches(const search *s, const char *key, size_t len)
{
	if (s->code) {
		return pcre2_match(s->code, (PCRE2_SPTR) key, len, 0, 0, s->data, php_pcre_mctx()) >= 0;
	}
	return !s->keys || zend_hash_str_exists(s->keys, key, len);
}

/* The value of a row that was listed, and of a string the row as it is now; nothing is counted. False if it was
 * dropped. */
static bool peek(zend_string *key, cache_row *row, zval *value)
{
	zend_string *text = NULL;

	if (row->value.kind != CACHE_STR) {
		ZVAL_NULL(value);
		apcu_unpack(value, &row->value, NULL, NULL);
		return true;
	}
	for (;;) {
		size_t room = row->value.kind == CACHE_STR ? row->value.len : 0;
		bool is_room = true;

		text = room > 0 ? zend_string_alloc(room - 1, 0) : NULL;
		row->place = 0;
		if (shared_lock()) {
			*row = cache_find_row(shared_at->cache, (const uint8_t *) ZSTR_VAL(key), ZSTR_LEN(key), 0);
			if (row->place != 0 && row->value.kind == CACHE_STR) {
				is_room = row->value.len <= room;
				if (is_room && text && !cache_copy(shared_at->cache, row->value.place, (uint8_t *) ZSTR_VAL(text), row->value.len)) {
					row->place = 0;
				}
			}
			shared_unlock();
		}
		if (is_room) {
			break;
		}
		if (text) {
			zend_string_efree(text);
		}
	}
	ZVAL_NULL(value);
	if (row->place == 0) {
		if (text) {
			zend_string_efree(text);
		}
		return false;
	}
	/* A value that can't be read is returned as null. */
	apcu_unpack(value, &row->value, text ? ZSTR_VAL(text) : NULL, text);
	return true;
}

static void add(HashTable *told, zend_string *name, zend_long number)
{
	zval value;

	ZVAL_LONG(&value, number);
	zend_hash_add_new(told, name, &value);
}

/* False if the row was dropped. */
static bool tell(apcu_item *item, zend_long format, cache_row row, const char *key)
{
	zval value;

	item->key = zend_string_init(key, row.key_len, 0);
	if ((format & ITER_VALUE) && !peek(item->key, &row, &value)) {
		zend_string_release(item->key);
		return false;
	}

	array_init(&item->told);
	HashTable *told = Z_ARRVAL(item->told);
	if (format & ITER_TYPE) {
		zval type;

		ZVAL_STR_COPY(&type, names.user);
		zend_hash_add_new(told, names.type, &type);
	}
	if (format & ITER_KEY) {
		zval name;

		ZVAL_STR_COPY(&name, item->key);
		zend_hash_add_new(told, names.key, &name);
	}
	if (format & ITER_VALUE) {
		zend_hash_add_new(told, names.value, &value);
	}
	if (format & ITER_NUM_HITS) {
		add(told, names.num_hits, (zend_long) row.hits);
	}
	if (format & ITER_MTIME) {
		add(told, names.mtime, (zend_long) row.mtime);
	}
	if (format & ITER_CTIME) {
		add(told, names.creation_time, (zend_long) row.ctime);
	}
	if (format & ITER_DTIME) {
		add(told, names.deletion_time, (zend_long) row.dtime);
	}
	if (format & ITER_ATIME) {
		add(told, names.access_time, (zend_long) row.atime);
	}
	if (format & ITER_REFCOUNT) {
		add(told, names.ref_count, 0);
	}
	if (format & ITER_MEM_SIZE) {
		add(told, names.mem_size, (zend_long) row.size * 8);
	}
	if (format & ITER_TTL) {
		add(told, names.ttl, row.ttl);
	}
	return true;
}

/* How many rows to list to get this many that match, if as many of them match as did before in this walk. What is
 * listed in vain is listed again for the next chunk. */
static size_t rows_for(const apcu_iterator *it, size_t matches)
{
	if (it->regex || it->keys) {
		double each = (double) (it->listed + 1) / (double) (it->kept + 1);

		matches = (size_t) ((double) matches * each) + 1;
	}
	return matches < ROWS_PER_LOCK ? matches : ROWS_PER_LOCK;
}

/* Keeps those rows of a list that are live and match, up to the end of the slot in which the chunk is
 * full, and returns their number. Slots after that one are listed again. */
static size_t keep_matches(apcu_iterator *it, const search *s, apcu_rows *list, size_t wanted, time_t t)
{
	size_t kept = 0, key = 0, kept_key = 0;

	for (size_t i = 0; i < list->count; i++) {
		cache_row *row = &list->rows[i];
		const char *bytes = list->keys + key;

		if (kept > wanted && row->slot != list->rows[kept - 1].slot) {
			it->slot = row->slot;
			break;
		}
		it->listed++;
		key += row->key_len;
		if (lives(row, t) && matches(s, bytes, row->key_len)) {
			memmove(list->keys + kept_key, bytes, row->key_len);
			kept_key += row->key_len;
			list->rows[kept++] = *row;
			it->kept++;
		}
	}
	return kept;
}

/* The next chunk, which replaces the one before; whether the iterator is on a row then. Whole slots are
 * taken until there are more rows than a chunk should have. Code of the values that are made or freed may call
 * the iterator, too, and take and free chunks of its own. */
static bool fetch_chunk(apcu_iterator *it)
{
	time_t t = apcu_time();
	apcu_item *items = NULL;
	size_t count = 0;
	apcu_rows list;
	search s;

	drop_chunk(it);
	if (it->slot >= it->end) {
		return it->at < it->count;
	}
	apcu_rows_start(&list, ROWS_AT_START, 64 * ROWS_AT_START);
	while (count <= it->chunk_size && list_some(it, &list, rows_for(it, it->chunk_size - count + 1))) {
		/* Values may run PHP code, and that may search too: so all keys are matched before. */
		if (!search_start(&s, it)) {
			break;
		}
		size_t kept = keep_matches(it, &s, &list, it->chunk_size - count, t);
		search_end(&s);

		const char *key = list.keys;
		items = safe_erealloc(items, count + kept + 1, sizeof *items, 0);
		for (size_t i = 0; i < kept; i++) {
			if (tell(&items[count], it->format, list.rows[i], key)) {
				count++;
			}
			key += list.rows[i].key_len;
		}
	}
	apcu_rows_free(&list);

	apcu_item *others = it->items;
	size_t others_count = it->count;
	it->items = items;
	it->count = count;
	it->at = 0;
	free_items(others, others_count);
	return it->at < it->count;
}

static void add_totals(apcu_iterator *it)
{
	time_t t = apcu_time();
	apcu_iterator all = {.end = shared_at->shape.slots};
	apcu_rows list;
	search s;

	it->has_totals = true;
	if (!search_start(&s, it)) {
		return;
	}
	apcu_rows_start(&list, ROWS_PER_LOCK + ROWS_AT_START, 64 * ROWS_PER_LOCK);
	while (list_some(&all, &list, ROWS_PER_LOCK)) {
		const char *key = list.keys;

		for (size_t i = 0; i < list.count; i++) {
			const cache_row *row = &list.rows[i];

			if (lives(row, t) && matches(&s, key, row->key_len)) {
				it->hits += (zend_long) row->hits;
				it->size += (size_t) row->size * 8;
				it->total++;
			}
			key += row->key_len;
		}
	}
	apcu_rows_free(&list);
	search_end(&s);
}

static HashTable *set_of(HashTable *list)
{
	HashTable *set = zend_new_array(zend_hash_num_elements(list));
	zval *key, one;

	ZVAL_LONG(&one, 1);
	ZEND_HASH_FOREACH_VAL(list, key) {
		ZVAL_DEREF(key);
		if (Z_TYPE_P(key) == IS_STRING) {
			zend_hash_update(set, Z_STR_P(key), &one);
		}
	} ZEND_HASH_FOREACH_END();
	return set;
}

ZEND_METHOD(APCUIterator, __construct)
{
	apcu_iterator *it = iterator_of(Z_OBJ_P(ZEND_THIS));
	zval *search = NULL;
	zend_long format = ITER_ALL, chunk_size = 0, list = LIST_ACTIVE;

	ZEND_PARSE_PARAMETERS_START(0, 4)
		Z_PARAM_OPTIONAL
		Z_PARAM_ZVAL_OR_NULL(search)
		Z_PARAM_LONG(format)
		Z_PARAM_LONG(chunk_size)
		Z_PARAM_LONG(list)
	ZEND_PARSE_PARAMETERS_END();

	if (chunk_size < 0) {
		php_error_docref(NULL, E_ERROR, "APCUIterator chunk size must be 0 or greater");
		return;
	}
	if (!shared_at) {
		zend_throw_error(NULL, "APC must be enabled to use APCUIterator");
		return;
	}
	if (format > ITER_ALL) {
		php_error_docref(NULL, E_ERROR, "APCUIterator format is invalid");
		return;
	}
	if (list != LIST_ACTIVE && list != LIST_DELETED) {
		php_error_docref(NULL, E_WARNING, "APCUIterator invalid list type");
		return;
	}

	drop_chunk(it);
	drop_search(it);
	it->format = format;
	it->chunk_size = chunk_size == 0 ? DEFAULT_CHUNK : (size_t) chunk_size;
	it->slot = 0;
	it->listed = it->kept = 0;
	/* No row is held here after it was removed. */
	it->end = list == LIST_ACTIVE ? shared_at->shape.slots : 0;
	it->has_totals = false;
	it->hits = it->total = 0;
	it->size = 0;
	if (search && Z_TYPE_P(search) == IS_STRING && Z_STRLEN_P(search) > 0) {
		if (!pcre_get_compiled_regex_cache(Z_STR_P(search))) {
			php_error_docref(NULL, E_ERROR, "Could not compile regular expression: %s", Z_STRVAL_P(search));
			return;
		}
		it->regex = zend_string_copy(Z_STR_P(search));
	} else if (search && Z_TYPE_P(search) == IS_ARRAY) {
		it->keys = set_of(Z_ARRVAL_P(search));
	}
	it->is_ready = true;
}

/* The iterator of a method that takes no arguments; null, and an error, if it is not initialised. */
static apcu_iterator *ready(zend_object *object)
{
	apcu_iterator *it = iterator_of(object);

	if (!it->is_ready) {
		zend_throw_error(NULL, "Trying to use uninitialized APCUIterator");
		return NULL;
	}
	return it;
}

#define READY(it) \
	ZEND_PARSE_PARAMETERS_NONE(); \
	apcu_iterator *it = ready(Z_OBJ_P(ZEND_THIS)); \
	if (!it) { \
		RETURN_THROWS(); \
	}

ZEND_METHOD(APCUIterator, rewind)
{
	READY(it);
	it->slot = 0;
	it->listed = it->kept = 0;
	fetch_chunk(it);
}

ZEND_METHOD(APCUIterator, next)
{
	READY(it);
	if (it->count > 0) {
		it->at++;
	}
}

ZEND_METHOD(APCUIterator, valid)
{
	READY(it);
	RETURN_BOOL(it->at < it->count || fetch_chunk(it));
}

/* The row of the iterator; null if it is at its end. */
static apcu_item *current(apcu_iterator *it)
{
	if (it->at >= it->count && !fetch_chunk(it)) {
		return NULL;
	}
	return &it->items[it->at];
}

ZEND_METHOD(APCUIterator, current)
{
	READY(it);
	apcu_item *item = current(it);
	if (!item) {
		zend_throw_error(NULL, "Cannot call current() on invalid iterator");
		RETURN_THROWS();
	}
	RETURN_COPY(&item->told);
}

ZEND_METHOD(APCUIterator, key)
{
	READY(it);
	apcu_item *item = current(it);
	if (!item) {
		zend_throw_error(NULL, "Cannot call key() on invalid iterator");
		RETURN_THROWS();
	}
	RETURN_STR_COPY(item->key);
}

ZEND_METHOD(APCUIterator, getTotalHits)
{
	READY(it);
	if (!it->has_totals) {
		add_totals(it);
	}
	RETURN_LONG(it->hits);
}

ZEND_METHOD(APCUIterator, getTotalSize)
{
	READY(it);
	if (!it->has_totals) {
		add_totals(it);
	}
	RETURN_LONG((zend_long) it->size);
}

ZEND_METHOD(APCUIterator, getTotalCount)
{
	READY(it);
	if (!it->has_totals) {
		add_totals(it);
	}
	RETURN_LONG(it->total);
}

bool apcu_iterator_delete(zval *object)
{
	if (!instanceof_function(Z_OBJCE_P(object), iterator_ce)) {
		php_error_docref(NULL, E_ERROR, "apc_delete object argument must be instance of APCUIterator.");
		return false;
	}

	apcu_iterator *it = ready(Z_OBJ_P(object));
	if (!it) {
		return false;
	}
	while (fetch_chunk(it)) {
		for (; it->at < it->count; it->at++) {
			apcu_delete_key(it->items[it->at].key);
		}
	}
	return true;
}

static zend_string *name_of(const char *text)
{
	return zend_string_init_interned(text, strlen(text), true);
}

void apcu_iterator_start(zend_class_entry *ce, int module_number)
{
	iterator_ce = ce;
	ce->create_object = create;
	memcpy(&iterator_handlers, zend_get_std_object_handlers(), sizeof iterator_handlers);
	iterator_handlers.offset = XtOffsetOf(apcu_iterator, object);
	iterator_handlers.free_obj = free_object;
	iterator_handlers.clone_obj = NULL;

	names.type = name_of("type");
	names.user = name_of("user");
	names.key = name_of("key");
	names.value = name_of("value");
	names.num_hits = name_of("num_hits");
	names.mtime = name_of("mtime");
	names.creation_time = name_of("creation_time");
	names.deletion_time = name_of("deletion_time");
	names.access_time = name_of("access_time");
	names.ref_count = name_of("ref_count");
	names.mem_size = name_of("mem_size");
	names.ttl = name_of("ttl");

	REGISTER_LONG_CONSTANT("APC_LIST_ACTIVE", LIST_ACTIVE, CONST_PERSISTENT | CONST_CS);
	REGISTER_LONG_CONSTANT("APC_LIST_DELETED", LIST_DELETED, CONST_PERSISTENT | CONST_CS);
	REGISTER_LONG_CONSTANT("APC_ITER_TYPE", ITER_TYPE, CONST_PERSISTENT | CONST_CS);
	REGISTER_LONG_CONSTANT("APC_ITER_KEY", ITER_KEY, CONST_PERSISTENT | CONST_CS);
	REGISTER_LONG_CONSTANT("APC_ITER_VALUE", ITER_VALUE, CONST_PERSISTENT | CONST_CS);
	REGISTER_LONG_CONSTANT("APC_ITER_NUM_HITS", ITER_NUM_HITS, CONST_PERSISTENT | CONST_CS);
	REGISTER_LONG_CONSTANT("APC_ITER_MTIME", ITER_MTIME, CONST_PERSISTENT | CONST_CS);
	REGISTER_LONG_CONSTANT("APC_ITER_CTIME", ITER_CTIME, CONST_PERSISTENT | CONST_CS);
	REGISTER_LONG_CONSTANT("APC_ITER_DTIME", ITER_DTIME, CONST_PERSISTENT | CONST_CS);
	REGISTER_LONG_CONSTANT("APC_ITER_ATIME", ITER_ATIME, CONST_PERSISTENT | CONST_CS);
	REGISTER_LONG_CONSTANT("APC_ITER_REFCOUNT", ITER_REFCOUNT, CONST_PERSISTENT | CONST_CS);
	REGISTER_LONG_CONSTANT("APC_ITER_MEM_SIZE", ITER_MEM_SIZE, CONST_PERSISTENT | CONST_CS);
	REGISTER_LONG_CONSTANT("APC_ITER_TTL", ITER_TTL, CONST_PERSISTENT | CONST_CS);
	REGISTER_LONG_CONSTANT("APC_ITER_NONE", 0, CONST_PERSISTENT | CONST_CS);
	REGISTER_LONG_CONSTANT("APC_ITER_ALL", ITER_ALL, CONST_PERSISTENT | CONST_CS);
}
