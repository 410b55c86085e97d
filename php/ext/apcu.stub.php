<?php // SPDX-License-Identifier: MIT

/**
 * @generate-class-entries
 */

/** Removes all rows. Always true. */
function apcu_clear_cache(): bool {}

/** The counters of the cache and, unless $limited, its rows; false and a warning if there is no cache. */
function apcu_cache_info(bool $limited = false): array|false {}

/** Information about a row, or null. Counts nothing. */
function apcu_key_info(string $key): ?array {}

/** The bytes of the segment and, unless $limited, its free blocks; false and a warning if there is no cache. */
function apcu_sma_info(bool $limited = false): array|false {}

/** Whether there is a cache in this process. */
function apcu_enabled(): bool {}

/**
 * Stores a value, or each value of an array by its key; of an array the keys that failed are returned.
 *
 * @param array|string $key
 */
function apcu_store($key, mixed $value = UNKNOWN, int $ttl = 0): array|bool {}

/**
 * As apcu_store, but never over a live row.
 *
 * @param array|string $key
 */
function apcu_add($key, mixed $value = UNKNOWN, int $ttl = 0): array|bool {}

/**
 * Adds to an integer, or stores the step if there is no live row.
 *
 * @param bool $success
 */
function apcu_inc(string $key, int $step = 1, &$success = null, int $ttl = 0): int|false {}

/**
 * Subtracts from an integer, or stores the negated step if there is no live row.
 *
 * @param bool $success
 */
function apcu_dec(string $key, int $step = 1, &$success = null, int $ttl = 0): int|false {}

/** Sets an integer if it has the old value. */
function apcu_cas(string $key, int $old, int $new): bool {}

/**
 * The value of a key, or those of the keys of a list that have live rows.
 *
 * @param array|string $key
 * @param bool $success
 */
function apcu_fetch($key, &$success = null): mixed {}

/**
 * Whether there is a live row, or for which of a list of keys.
 *
 * @param array|string $key
 */
function apcu_exists($key): array|bool {}

/**
 * Removes a row, those of a list of keys (those that failed are returned), or all that an iterator finds.
 *
 * @param APCUIterator|array|string $key
 */
function apcu_delete($key): array|bool {}

/** The value of a key; if there is no live row, the callback's result, which is stored. */
function apcu_entry(string $key, callable $callback, int $ttl = 0): mixed {}

/** The rows whose keys match a pattern or are in a list. */
class APCUIterator implements Iterator
{
    /** @param array|string|null $search */
    public function __construct(
        $search = null,
        int $format = APC_ITER_ALL,
        int $chunk_size = 0,
        int $list = APC_LIST_ACTIVE
    ) {}

    public function rewind(): void {}

    public function next(): void {}

    public function valid(): bool {}

    public function key(): string|int {}

    public function current(): mixed {}

    public function getTotalHits(): int {}

    public function getTotalSize(): int {}

    public function getTotalCount(): int {}
}
