/* SPDX-License-Identifier: MIT */
#include "php_apcu.h"

#include "ext/standard/basic_functions.h"
#include "ext/standard/php_var.h"
#include "zend_constants.h"
#include "zend_smart_str.h"

/* The last byte of a string of the cache. That of a string is the zero which PHP has after each. A stamped value has
 * text, from 0 to 7 zeros up to the next word, the stamp in a word, and the mark. */
enum {
	MARK_TEXT = 0,
	MARK_PHP = 1,       /* as serialize writes it */
	MARK_DOUBLE = 2,
	MARK_OTHER = 3,     /* as a serializer of another module writes it */
	MARK_KINDS = 7,
	MARK_STAMPED = 8,
	MARK_ZEROS = 16     /* times the number of zeros */
};

/* The most bytes of zeros, stamp and mark. */
#define MOST_TAIL (sizeof(uint64_t) - 1 + APCU_TAIL)

/* Serializers that other modules register, as with APCu: they find the function by a constant. */
typedef int (*serialize_t)(unsigned char **buf, size_t *len, const zval *value, void *config);
typedef int (*unserialize_t)(zval *value, unsigned char *buf, size_t len, void *config);

typedef struct {
	const char *name;
	serialize_t serialize;
	unserialize_t unserialize;
	void *config;
} serializer_t;

static serializer_t serializers[16];
static size_t serializers_count;

/* The one of apc.serializer; null until it is registered, and for "default". Then PHP's is used. */
static const serializer_t *serializer;

static int php_serialize(unsigned char **buf, size_t *len, const zval *value, void *config);
static int php_unserialize(zval *value, unsigned char *buf, size_t len, void *config);

static int register_serializer(const char *name, serialize_t serialize, unserialize_t unserialize, void *config)
{
	if (serializers_count == sizeof serializers / sizeof *serializers) {
		return 0;
	}
	serializers[serializers_count++] = (serializer_t) {name, serialize, unserialize, config};
	return 1;
}

void apcu_serializers_start(int module_number)
{
	serializers_count = 0;
	serializer = NULL;
	register_serializer("php", php_serialize, php_unserialize, NULL);
	REGISTER_LONG_CONSTANT("\000apc_register_serializer-0", (zend_long) (uintptr_t) register_serializer,
		CONST_PERSISTENT | CONST_CS);
	apcu_serializers_find();
}

void apcu_serializers_find(void)
{
	for (size_t i = 0; i < serializers_count && !serializer; i++) {
		if (APCU_G(serializer_name) && strcmp(serializers[i].name, APCU_G(serializer_name)) == 0) {
			serializer = &serializers[i];
		}
	}
}

zend_string *apcu_serializers_names(void)
{
	smart_str names = {0};

	for (size_t i = 0; i < serializers_count; i++) {
		if (i > 0) {
			smart_str_appends(&names, ", ");
		}
		smart_str_appends(&names, serializers[i].name);
	}
	return smart_str_extract(&names);
}

/* False, and an exception or nothing, if there is no text. */
static bool write_text(smart_str *text, zval *value)
{
	php_serialize_data_t data;

	BG(serialize_lock)++;
	PHP_VAR_SERIALIZE_INIT(data);
	php_var_serialize(text, value, &data);
	PHP_VAR_SERIALIZE_DESTROY(data);
	BG(serialize_lock)--;

	if (EG(exception)) {
		smart_str_free(text);
		return false;
	}
	return text->s != NULL;
}

/* `out` was a value before, or undefined. */
static bool value_of(zval *out, const unsigned char *text, size_t len)
{
	const unsigned char *at = text;
	php_unserialize_data_t data;

	BG(serialize_lock)++;
	PHP_VAR_UNSERIALIZE_INIT(data);
	bool is_read = php_var_unserialize(out, &at, text + len, &data);
	PHP_VAR_UNSERIALIZE_DESTROY(data);
	BG(serialize_lock)--;

	if (!is_read) {
		php_error_docref(NULL, E_NOTICE, "Error at offset " ZEND_LONG_FMT " of " ZEND_LONG_FMT " bytes",
			(zend_long) (at - text), (zend_long) len);
		zval_ptr_dtor(out);
		ZVAL_NULL(out);
	}
	return is_read;
}

/* PHP's serializer, as a module that asks for it by its name would call it. */
static int php_serialize(unsigned char **buf, size_t *len, const zval *value, void *config)
{
	smart_str text = {0};

	if (!write_text(&text, (zval *) value)) {
		return 0;
	}
	*len = ZSTR_LEN(text.s);
	*buf = (unsigned char *) estrndup(ZSTR_VAL(text.s), *len);
	smart_str_free(&text);
	return 1;
}

static int php_unserialize(zval *value, unsigned char *buf, size_t len, void *config)
{
	return value_of(value, buf, len);
}

uint64_t apcu_stamp_of(const uint8_t tail[APCU_TAIL])
{
	uint64_t stamp = 0;

	if (tail[sizeof stamp] & MARK_STAMPED) {
		memcpy(&stamp, tail, sizeof stamp);
	}
	return stamp;
}

/* What follows the `len` bytes of a value's text; returns its length. */
static size_t write_tail(char *at, size_t len, char mark, bool is_stamped)
{
	if (!is_stamped) {
		*at = mark;
		return 1;
	}

	uint64_t stamp = apcu_shm_stamp();
	size_t zeros = (sizeof stamp - len % sizeof stamp) % sizeof stamp;
	memset(at, 0, zeros);
	memcpy(at + zeros, &stamp, sizeof stamp);
	at[zeros + sizeof stamp] = (char) (mark + MARK_STAMPED + MARK_ZEROS * zeros);
	return zeros + APCU_TAIL;
}

static void pack_text(apcu_value *out, smart_str *text, char mark, bool is_stamped)
{
	char tail[MOST_TAIL];

	smart_str_appendl(text, tail, write_tail(tail, ZSTR_LEN(text->s), mark, is_stamped));
	out->text = text->s;
	out->bytes = ZSTR_VAL(text->s);
	out->len = ZSTR_LEN(text->s);
}

/* A stamped copy of a string. */
static void pack_string(apcu_value *out, const zend_string *value)
{
	zend_string *text = zend_string_alloc(ZSTR_LEN(value) + MOST_TAIL, 0);

	memcpy(ZSTR_VAL(text), ZSTR_VAL(value), ZSTR_LEN(value));
	out->text = text;
	out->bytes = ZSTR_VAL(text);
	out->len = ZSTR_LEN(value) + write_tail(ZSTR_VAL(text) + ZSTR_LEN(value), ZSTR_LEN(value), MARK_TEXT, true);
}

static bool is_stamped(const zval *value)
{
	return Z_TYPE_P(value) == IS_ARRAY && apcu_keeps();
}

static bool pack_by_php(apcu_value *out, zval *value)
{
	smart_str text = {0};

	if (!write_text(&text, value)) {
		return false;
	}
	pack_text(out, &text, MARK_PHP, is_stamped(value));
	return true;
}

static bool pack_by_other(apcu_value *out, const zval *value)
{
	size_t len = 0;

	if (!serializer->serialize(&out->data, &len, value, serializer->config)) {
		return false;
	}
	out->data = erealloc(out->data, len + MOST_TAIL);
	out->bytes = (const char *) out->data;
	out->len = len + write_tail((char *) out->data + len, len, MARK_OTHER, is_stamped(value));
	return true;
}

static void start(apcu_value *out)
{
	out->kind = CACHE_STR;
	out->number = 0;
	out->bytes = "";
	out->len = 0;
	out->text = NULL;
	out->data = NULL;
}

void apcu_pack_text(apcu_value *out, const char *text, size_t len)
{
	smart_str bytes = {0};

	start(out);
	smart_str_appendl(&bytes, text, len);
	pack_text(out, &bytes, MARK_PHP, *text == 'a' && apcu_keeps());
}

bool apcu_pack(apcu_value *out, zval *value, bool stamps_string)
{
	start(out);
	ZVAL_DEREF(value);
	switch (Z_TYPE_P(value)) {
		case IS_UNDEF:
		case IS_NULL:
			out->kind = CACHE_NULL;
			return true;
		case IS_FALSE:
		case IS_TRUE:
			out->kind = CACHE_BOOL;
			out->number = Z_TYPE_P(value) == IS_TRUE;
			return true;
		case IS_LONG:
			out->kind = CACHE_INT;
			out->number = (uint64_t) Z_LVAL_P(value);
			return true;
		case IS_DOUBLE:
			memcpy(out->eight, &Z_DVAL_P(value), sizeof(double));
			out->eight[sizeof(double)] = MARK_DOUBLE;
			out->bytes = out->eight;
			out->len = sizeof out->eight;
			return true;
		case IS_STRING:
			if (stamps_string && Z_STRLEN_P(value) >= APCU_LONG_STRING) {
				pack_string(out, Z_STR_P(value));
				return true;
			}
			out->bytes = Z_STRVAL_P(value);
			out->len = Z_STRLEN_P(value) + 1;
			return true;
		case IS_RESOURCE:
			php_error_docref(NULL, E_WARNING, "Cannot store resources in apcu cache");
			return false;
	}
	return serializer && serializer->serialize != php_serialize ? pack_by_other(out, value) : pack_by_php(out, value);
}

void apcu_value_free(apcu_value *value)
{
	if (value->text) {
		zend_string_release(value->text);
	}
	if (value->data) {
		efree(value->data);
	}
}

/* Bytes with a zero where their mark was. Those of `text` are consumed with it if it becomes null. */
static bool unpack_bytes(zval *out, char *bytes, size_t len, char mark, zend_string **text)
{
	switch (mark) {
		case MARK_TEXT:
			if (*text) {
				/* There may have been room for more than was read. */
				ZVAL_NEW_STR(out, ZSTR_LEN(*text) == len ? *text : zend_string_truncate(*text, len, 0));
				*text = NULL;
			} else {
				ZVAL_STRINGL(out, bytes, len);
			}
			return true;
		case MARK_PHP:
			return value_of(out, (const unsigned char *) bytes, len);
		case MARK_DOUBLE:
			if (len == sizeof(double)) {
				double number;

				memcpy(&number, bytes, len);
				ZVAL_DOUBLE(out, number);
				return true;
			}
			break;
		case MARK_OTHER:
			if (serializer && serializer->unserialize(out, (unsigned char *) bytes, len, serializer->config)) {
				return true;
			}
			break;
	}
	ZVAL_NULL(out);
	return false;
}

bool apcu_is_plain(const char *bytes, size_t len)
{
	return len > 0 && (bytes[len - 1] == MARK_TEXT || bytes[len - 1] == MARK_DOUBLE);
}

bool apcu_unpack(zval *out, const cache_answer *answer, char *bytes, zend_string *text)
{
	bool is_read = true;

	switch (answer->kind) {
		case CACHE_NULL:
			ZVAL_NULL(out);
			break;
		case CACHE_BOOL:
			ZVAL_BOOL(out, answer->number != 0);
			break;
		case CACHE_INT:
			ZVAL_LONG(out, answer->number);
			break;
		case CACHE_STR:
			is_read = answer->len > 0;
			if (is_read) {
				size_t len = (size_t) answer->len - 1;
				unsigned char mark = (unsigned char) bytes[len];

				if (mark & MARK_STAMPED) {
					len -= MIN(len, sizeof(uint64_t) + mark / MARK_ZEROS);
				}
				bytes[len] = '\0';
				is_read = unpack_bytes(out, bytes, len, mark & MARK_KINDS, &text);
			}
			break;
		default:
			is_read = false;
	}
	if (text) {
		zend_string_release(text);
	}
	return is_read;
}
