/* SPDX-License-Identifier: MIT */
#include "php_apcu.h"

#include "php_ini.h"

static PHP_INI_MH(on_shm_segments)
{
	if (ZEND_STRTOL(ZSTR_VAL(new_value), NULL, 10) != 1) {
		php_error_docref(NULL, E_WARNING, "apc.shm_segments setting ignored in MMAP mode");
	}
	APCU_G(shm_segments) = 1;
	return SUCCESS;
}

static PHP_INI_MH(on_shm_size)
{
#if PHP_VERSION_ID >= 80200
	zend_long size = zend_ini_parse_quantity_warn(new_value, entry->name);
#else
	zend_long size = zend_atol(ZSTR_VAL(new_value), ZSTR_LEN(new_value));
#endif

	if (size <= 0) {
		return FAILURE;
	}
	if (size < 1024 * 1024) {
		php_error_docref(NULL, E_WARNING, "apc.shm_size now uses M/G suffixes, please update your ini files");
		size *= 1024 * 1024;
	}
	APCU_G(shm_size) = size;
	return SUCCESS;
}

/* apc.gc_ttl, apc.smart and apc.mmap_file_mask are accepted, and have no effect. */
PHP_INI_BEGIN()
	STD_PHP_INI_BOOLEAN("apc.enabled", "1", PHP_INI_SYSTEM, OnUpdateBool, enabled, zend_apcu_globals, apcu_globals)
	STD_PHP_INI_ENTRY("apc.shm_segments", "1", PHP_INI_SYSTEM, on_shm_segments, shm_segments, zend_apcu_globals, apcu_globals)
	STD_PHP_INI_ENTRY("apc.shm_size", "32M", PHP_INI_SYSTEM, on_shm_size, shm_size, zend_apcu_globals, apcu_globals)
	STD_PHP_INI_ENTRY("apc.entries_hint", "4096", PHP_INI_SYSTEM, OnUpdateLong, entries_hint, zend_apcu_globals, apcu_globals)
	STD_PHP_INI_ENTRY("apc.gc_ttl", "3600", PHP_INI_SYSTEM, OnUpdateLong, gc_ttl, zend_apcu_globals, apcu_globals)
	STD_PHP_INI_ENTRY("apc.ttl", "0", PHP_INI_SYSTEM, OnUpdateLong, ttl, zend_apcu_globals, apcu_globals)
	STD_PHP_INI_ENTRY("apc.smart", "0", PHP_INI_SYSTEM, OnUpdateLong, smart, zend_apcu_globals, apcu_globals)
	STD_PHP_INI_ENTRY("apc.mmap_file_mask", NULL, PHP_INI_SYSTEM, OnUpdateString, mmap_file_mask, zend_apcu_globals, apcu_globals)
	STD_PHP_INI_BOOLEAN("apc.enable_cli", "0", PHP_INI_SYSTEM, OnUpdateBool, enable_cli, zend_apcu_globals, apcu_globals)
	STD_PHP_INI_BOOLEAN("apc.slam_defense", "0", PHP_INI_SYSTEM, OnUpdateBool, slam_defense, zend_apcu_globals, apcu_globals)
	STD_PHP_INI_ENTRY("apc.preload_path", NULL, PHP_INI_SYSTEM, OnUpdateString, preload_path, zend_apcu_globals, apcu_globals)
	STD_PHP_INI_BOOLEAN("apc.coredump_unmap", "0", PHP_INI_SYSTEM, OnUpdateBool, coredump_unmap, zend_apcu_globals, apcu_globals)
	STD_PHP_INI_BOOLEAN("apc.use_request_time", "0", PHP_INI_ALL, OnUpdateBool, use_request_time, zend_apcu_globals, apcu_globals)
	STD_PHP_INI_ENTRY("apc.record_dir", NULL, PHP_INI_SYSTEM, OnUpdateString, record_dir, zend_apcu_globals, apcu_globals)
	STD_PHP_INI_BOOLEAN("apc.record_values", "1", PHP_INI_SYSTEM, OnUpdateBool, record_values, zend_apcu_globals, apcu_globals)
	STD_PHP_INI_ENTRY("apc.kept_size", "0", PHP_INI_SYSTEM, OnUpdateLongGEZero, kept_size, zend_apcu_globals, apcu_globals)
	STD_PHP_INI_ENTRY("apc.record_size", "1G", PHP_INI_SYSTEM, OnUpdateLongGEZero, record_size, zend_apcu_globals, apcu_globals)
	STD_PHP_INI_ENTRY("apc.serializer", "php", PHP_INI_SYSTEM, OnUpdateStringUnempty, serializer_name, zend_apcu_globals, apcu_globals)
PHP_INI_END()

void apcu_settings_start(int type, int module_number)
{
	REGISTER_INI_ENTRIES();
}

void apcu_settings_stop(int type, int module_number)
{
	UNREGISTER_INI_ENTRIES();
}

bool apcu_settings_is_dumped(void)
{
	const char *name = "apc.coredump_unmap";

	return cfg_get_entry(name, strlen(name)) && !APCU_G(coredump_unmap);
}

static uint32_t within(zend_long number, zend_long most)
{
	return (uint32_t) (number < 0 ? 0 : number > most ? most : number);
}

static bool is_prime(uint32_t number)
{
	for (uint32_t divisor = 2; divisor <= number / divisor; divisor++) {
		if (number % divisor == 0) {
			return false;
		}
	}
	return true;
}

/* The number of slots has to be even. Twice a prime shares no other factor with the 33 of PHP's hash, so keys
 * that end alike are spread over all slots. The default stays a power of two: its remainder is a mask, which is
 * faster than a division. */
static uint32_t slots_for(zend_long hint)
{
	enum { DEFAULT = 4096, LEAST = 256, LARGEST_HALF = 524287 };

	if (hint == DEFAULT) {
		return DEFAULT;
	}
	uint32_t half = hint < LEAST ? LEAST / 2 : within(hint / 2 + hint % 2, LARGEST_HALF);
	/* LARGEST_HALF is a prime. */
	while (!is_prime(half)) {
		half++;
	}
	return 2 * half;
}

cache_shape apcu_settings_shape(void)
{
	cache_shape shape = {
		.words = within(APCU_G(shm_size) / 16, UINT32_MAX / 2) * 2,
		.slots = slots_for(APCU_G(entries_hint) > 0 ? APCU_G(entries_hint) : 2000),
		.ttl = within(APCU_G(ttl), UINT32_MAX),
		.segments = 1
	};

	return shape;
}
