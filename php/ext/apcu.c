/* SPDX-License-Identifier: MIT */
#include "php_apcu.h"
#include "record.h"

#include "SAPI.h"
#include "ext/standard/info.h"
#include "php_ini.h"
#include "zend_interfaces.h"

#include "apcu_arginfo.h"

ZEND_DECLARE_MODULE_GLOBALS(apcu)

static PHP_GINIT_FUNCTION(apcu)
{
#if defined(ZTS) && defined(COMPILE_DL_APCU)
	ZEND_TSRMLS_CACHE_UPDATE();
#endif
	memset(apcu_globals, 0, sizeof *apcu_globals);
}

/* If there are too many slots for the words, the server does not start, as with APCu. If there
 * are too many words, or the system has no memory for them, it starts without a cache. */
static void start_cache(void)
{
	cache_shape shape = apcu_settings_shape();
	size_t bytes = 0;

	if (shared_is_good(&shape)) {
		if (!apcu_shm_start(&shape, apcu_settings_is_dumped(), &bytes)) {
			zend_error(E_CORE_WARNING, "apc_mmap: Failed to mmap %zu bytes. Is your apc.shm_size too large?", bytes);
		}
		return;
	}

	size_t slots = shape.slots;
	shape.slots = 2;
	if (shared_is_good(&shape)) {
		zend_error_noreturn(E_CORE_ERROR, "Unable to allocate %zu bytes of shared memory for cache structures. "
			"Either apc.shm_size is too small or apc.entries_hint too large", slots * sizeof(uint64_t));
	}
	for (shape.words = (uint32_t) 1 << 31; shape.words > 2 && !shared_is_good(&shape); shape.words /= 2) {
	}
	zend_error(E_CORE_WARNING, "apc.shm_size is " ZEND_LONG_FMT " bytes, which exceeds the maximum of %zu; APCu is disabled",
		APCU_G(shm_size), (size_t) shape.words * sizeof(uint64_t));
}

static void tell(const char *fault)
{
	if (UNEXPECTED(fault)) {
		php_log_err(fault);
	}
}

static void start_record(void)
{
	if (!shared_at || !APCU_G(record_dir) || !*APCU_G(record_dir)) {
		return;
	}
#ifdef ZTS
	/* One thread of a process becomes the writer, and a process number does not identify a thread. */
	php_log_err("apcu: apc.record_dir is ignored: recording is not supported on thread-safe (ZTS) builds");
#else
	tell(apcu_record_start(APCU_G(record_dir), APCU_G(record_values), (uint64_t) APCU_G(record_size)));
#endif
}

static PHP_MINIT_FUNCTION(apcu)
{
	bool is_cli = strcmp(sapi_module.name, "cli") == 0;

	apcu_settings_start(type, module_number);
	apcu_info_start();
	if (APCU_G(enabled) && (APCU_G(enable_cli) || !is_cli)) {
		apcu_serializers_start(module_number);
		start_cache();
	}
	start_record();
	if (shared_at && APCU_G(preload_path)) {
		apcu_preload(APCU_G(preload_path));
	}
	apcu_iterator_start(register_class_APCUIterator(zend_ce_iterator), module_number);
	return SUCCESS;
}

static PHP_MSHUTDOWN_FUNCTION(apcu)
{
	tell(apcu_record_stop());
	apcu_kept_stop();
	shared_end();
	apcu_settings_stop(type, module_number);
	return SUCCESS;
}

static PHP_RINIT_FUNCTION(apcu)
{
#if defined(ZTS) && defined(COMPILE_DL_APCU)
	ZEND_TSRMLS_CACHE_UPDATE();
#endif
	APCU_G(request_time) = 0;
	apcu_kept_start_request();
	if (shared_at) {
		/* Modules that start after this one have registered by now. */
		apcu_serializers_find();
	}
	return SUCCESS;
}

static PHP_RSHUTDOWN_FUNCTION(apcu)
{
	apcu_entry_leave();
	tell(apcu_record_leave());
	return SUCCESS;
}

/* Save handlers of sessions and output callbacks have run by now: no code of the request fetches a value any more. */
static ZEND_MODULE_POST_ZEND_DEACTIVATE_D(apcu)
{
	apcu_kept_end_request();
	return SUCCESS;
}

static PHP_MINFO_FUNCTION(apcu)
{
	apcu_info_print();
	display_ini_entries(zend_module);
}

zend_module_entry apcu_module_entry = {
	STANDARD_MODULE_HEADER,
	PHP_APCU_EXTNAME,
	ext_functions,
	PHP_MINIT(apcu),
	PHP_MSHUTDOWN(apcu),
	PHP_RINIT(apcu),
	PHP_RSHUTDOWN(apcu),
	PHP_MINFO(apcu),
	PHP_APCU_VERSION,
	PHP_MODULE_GLOBALS(apcu),
	PHP_GINIT(apcu),
	NULL,
	ZEND_MODULE_POST_ZEND_DEACTIVATE_N(apcu),
	STANDARD_MODULE_PROPERTIES_EX
};

#ifdef COMPILE_DL_APCU
# ifdef ZTS
ZEND_TSRMLS_CACHE_DEFINE()
# endif
ZEND_GET_MODULE(apcu)
#endif
