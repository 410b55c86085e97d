/* SPDX-License-Identifier: MIT */
/* The interface by which another extension registers a serializer for apc.serializer. Its names are those that
 * extensions written for APCu use. Include it after php.h. */
#ifndef APC_SERIALIZER_H
#define APC_SERIALIZER_H

/* The names and the parameters of a module's two functions. */
#define APC_SERIALIZER_NAME(module) module##_apc_serializer
#define APC_UNSERIALIZER_NAME(module) module##_apc_unserializer
#define APC_SERIALIZER_ARGS unsigned char **buf, size_t *buf_len, const zval *value, void *config
#define APC_UNSERIALIZER_ARGS zval *value, unsigned char *buf, size_t buf_len, void *config

/* Both return 1, or 0 if they fail. The first allocates *buf by emalloc; the extension frees it. */
typedef int (*apc_serialize_t)(APC_SERIALIZER_ARGS);
typedef int (*apc_unserialize_t)(APC_UNSERIALIZER_ARGS);

typedef int (*apc_register_serializer_t)(const char *name, apc_serialize_t serialize,
	apc_unserialize_t unserialize, void *config);

/* The constant that has the address of the function that registers; its last part is the version of this interface. */
#define APC_SERIALIZER_ABI "0"
#define APC_SERIALIZER_CONSTANT "\000apc_register_serializer-" APC_SERIALIZER_ABI

/* Registers a serializer: 1, or 0 if the extension apcu is not loaded, has no cache, or has no room for one more.
 * Call it in MINIT, after apcu's (ZEND_MOD_OPTIONAL("apcu")). The name must stay valid until PHP ends. */
static inline int apc_register_serializer(const char *name, apc_serialize_t serialize,
	apc_unserialize_t unserialize, void *config)
{
	zval *address = zend_get_constant_str(APC_SERIALIZER_CONSTANT, sizeof(APC_SERIALIZER_CONSTANT) - 1);

	if (!address || !Z_LVAL_P(address)) {
		return 0;
	}
	return ((apc_register_serializer_t) (uintptr_t) Z_LVAL_P(address))(name, serialize, unserialize, config);
}

#endif
