/* SPDX-License-Identifier: MIT */
/* See calls.h. Each call asks the clock for its second, as APCu's functions do. */
#include "calls.h"

#include "apc_cache.h"
#include "../../capi/shared_cache.h"

#include <time.h>

/* Ours. */

uint8_t *handle;
bool is_locked;

static uint8_t *enter(void) { return is_locked ? shared_enter() : handle; }

static void leave(void) {
    if (is_locked)
        shared_leave();
}

static cache_answer ask(cache_request request, zend_string *key, const char *text, size_t len) {
    request.t = (uint64_t)time(NULL);
    return cache_ask(enter(), &request, (const uint8_t *)ZSTR_VAL(key), ZSTR_LEN(key),
                     (const uint8_t *)text, len);
}

static bool exists(zend_string *key, zval *value) {
    (void)value;
    uint32_t kind = ask((cache_request){.kind = CACHE_EXISTS}, key, "", 0).kind;
    leave();
    return kind == CACHE_YES;
}

static bool exists_not(zend_string *key, zval *value) { return !exists(key, value); }

static bool look(zend_string *key, zval *value) {
    (void)value;
    cache_answer a = ask((cache_request){.kind = CACHE_LOOK}, key, "", 0);
    if (a.kind != CACHE_STR) {
        leave();
        return a.kind == CACHE_INT;
    }
    zend_string *text = zend_string_alloc(a.len, false);
    bool is_copied = cache_copy(handle, a.place, (uint8_t *)ZSTR_VAL(text), a.len);
    leave();
    ZSTR_VAL(text)[a.len] = '\0';
    zend_string_release(text);
    return is_copied;
}

static uint32_t put(uint32_t kind, zend_string *key, zval *value) {
    cache_request request = {.kind = kind, .value = CACHE_BOOL, .number = 1};
    const char *text = "";
    size_t len = 0;
    if (Z_TYPE_P(value) == IS_LONG) {
        request.value = CACHE_INT;
        request.number = (uint64_t)Z_LVAL_P(value);
    } else if (Z_TYPE_P(value) == IS_STRING) {
        request.value = CACHE_STR;
        text = Z_STRVAL_P(value);
        len = Z_STRLEN_P(value);
    }
    uint32_t answer = ask(request, key, text, len).kind;
    leave();
    return answer;
}

static bool store(zend_string *key, zval *value) {
    return put(CACHE_STORE, key, value) == CACHE_YES;
}

static bool add_there(zend_string *key, zval *value) {
    return put(CACHE_ADD, key, value) == CACHE_NO;
}

static bool delete (zend_string *key, zval *value) {
    (void)value;
    uint32_t kind = ask((cache_request){.kind = CACHE_DELETE}, key, "", 0).kind;
    leave();
    return kind == CACHE_YES;
}

static bool inc(zend_string *key, zval *value) {
    (void)value;
    uint32_t kind = ask((cache_request){.kind = CACHE_COUNT, .number = 1}, key, "", 0).kind;
    leave();
    return kind == CACHE_INT;
}

static bool cas(zend_string *key, zval *value) {
    uint64_t same = (uint64_t)Z_LVAL_P(value);
    cache_request swap = {.kind = CACHE_SWAP, .number = same, .set = same};
    uint32_t kind = ask(swap, key, "", 0).kind;
    leave();
    return kind == CACHE_YES;
}

static cache_row find_row(zend_string *key) {
    uint64_t t = (uint64_t)time(NULL);
    cache_row row = cache_find_row(enter(), (const uint8_t *)ZSTR_VAL(key), ZSTR_LEN(key), t);
    leave();
    return row;
}

static bool row_alone(zend_string *key, zval *value) {
    (void)value;
    return find_row(key).place != 0;
}

/* The members of PHP's array, whose hashes are known. */
enum { MEMBERS = 7 };
static zend_string *members[MEMBERS];

void begin_calls(void) {
    static const char *const names[MEMBERS] = {
        "hits", "access_time", "mtime", "creation_time", "deletion_time", "ttl", "refs"};
    for (size_t i = 0; i < MEMBERS; i++) {
        members[i] = zend_string_init(names[i], strlen(names[i]), false);
        zend_string_hash_val(members[i]);
    }
}

static bool key_info(zend_string *key, zval *value) {
    (void)value;
    cache_row row = find_row(key);
    const uint64_t numbers[MEMBERS] = {row.hits,  row.atime, row.mtime, row.ctime,
                                       row.dtime, row.ttl,   0};
    zval info;
    array_init_size(&info, MEMBERS);
    for (size_t i = 0; i < MEMBERS; i++) {
        zval number;
        ZVAL_LONG(&number, (zend_long)numbers[i]);
        zend_hash_add_new(Z_ARRVAL(info), members[i], &number);
    }
    bool is_whole = row.place != 0 && zend_hash_num_elements(Z_ARRVAL(info)) == MEMBERS;
    zval_ptr_dtor(&info);
    return is_whole;
}

/* APCu's. The hash of a key is asked for again in each call. */

static zend_string *unhashed(zend_string *key) {
    ZSTR_H(key) = 0;
    return key;
}

static bool apcu_exists(zend_string *key, zval *value) {
    (void)value;
    return apc_cache_exists(apc_user_cache, unhashed(key), time(NULL));
}

static bool apcu_exists_not(zend_string *key, zval *value) { return !apcu_exists(key, value); }

static bool apcu_look(zend_string *key, zval *value) {
    (void)value;
    zval found;
    ZVAL_UNDEF(&found);
    bool is_there = apc_cache_fetch(apc_user_cache, unhashed(key), time(NULL), &found);
    zval_ptr_dtor(&found);
    return is_there;
}

static bool apcu_store(zend_string *key, zval *value) {
    return apc_cache_store(apc_user_cache, unhashed(key), value, 0, false);
}

bool store_on_both(zend_string *key, zval *value) {
    return store(key, value) && apcu_store(key, value);
}

static bool apcu_add_there(zend_string *key, zval *value) {
    return !apc_cache_store(apc_user_cache, unhashed(key), value, 0, true);
}

static bool apcu_delete(zend_string *key, zval *value) {
    (void)value;
    return apc_cache_delete(apc_user_cache, unhashed(key));
}

static zend_bool one_more(apc_cache_t *cache, zend_long *number, void *data) {
    (void)cache;
    (void)data;
    __atomic_add_fetch(number, 1, __ATOMIC_SEQ_CST);
    return true;
}

static bool apcu_inc(zend_string *key, zval *value) {
    (void)value;
    return apc_cache_atomic_update_long(apc_user_cache, unhashed(key), one_more, NULL, false, 0);
}

static zend_bool swap_same(apc_cache_t *cache, zend_long *number, void *data) {
    (void)cache;
    zend_long expected = *(zend_long *)data;
    return __atomic_compare_exchange_n(number, &expected, expected, false, __ATOMIC_SEQ_CST,
                                       __ATOMIC_SEQ_CST);
}

static bool apcu_cas(zend_string *key, zval *value) {
    return apc_cache_atomic_update_long(apc_user_cache, unhashed(key), swap_same, &Z_LVAL_P(value),
                                        false, 0);
}

static bool apcu_key_info(zend_string *key, zval *value) {
    (void)value;
    zval info;
    ZVAL_UNDEF(&info);
    apc_cache_stat(apc_user_cache, unhashed(key), &info);
    bool is_there = Z_TYPE(info) == IS_ARRAY;
    zval_ptr_dtor(&info);
    return is_there;
}

const struct measure measures[] = {
    {"exists, there", EIGHT, exists, apcu_exists, false, false},
    {"fetch, integer", INTEGER, look, apcu_look, false, true},
    {"fetch, 8 bytes", EIGHT, look, apcu_look, false, false},
    {"fetch, 100 bytes", HUNDRED, look, apcu_look, false, true},
    {"fetch, 10 KB", TEN_KB, look, apcu_look, false, true},
    {"fetch, 1 MB", ONE_MB, look, apcu_look, false, false},
    {"inc", COUNTER, inc, apcu_inc, false, true},
    {"cas", INTEGER, cas, apcu_cas, false, false},
    {"add, there", EIGHT, add_there, apcu_add_there, false, false},
    {"store over 8 bytes", EIGHT, store, apcu_store, false, false},
    {"store over 100 bytes", HUNDRED, store, apcu_store, false, true},
    {"store over 10 KB", TEN_KB, store, apcu_store, false, false},
    {"store over 1 MB", ONE_MB, store, apcu_store, false, false},
    {"delete, 8 bytes", EIGHT, delete, apcu_delete, true, false},
    {"exists, not there", EIGHT, exists_not, apcu_exists_not, true, false},
    {"new row, 8 bytes", EIGHT, store, apcu_store, false, false},
    {"delete, 100 bytes", HUNDRED, delete, apcu_delete, true, false},
    {"new row, 100 bytes", HUNDRED, store, apcu_store, false, false},
    {"key_info", EIGHT, key_info, apcu_key_info, false, false},
    {"key_info, ours without PHP's array", EIGHT, row_alone, apcu_key_info, false, false},
    {NULL, 0, NULL, NULL, false, false},
};
