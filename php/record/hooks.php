<?php // SPDX-License-Identifier: MIT

// A hook of uopz runs before the function whose name it has, and the function then runs as if there were none: its
// arguments, its answer and what it throws stay as they are. No hook throws.

declare(strict_types=1);

namespace ApcuRecord;

// The two calls that a site makes most. With uopz each call of a function and each constant is looked up again, so there
// are few.
\uopz_set_hook('apcu_fetch', static function (mixed $key = null): void {
    try {
        Text::$string = $key;
    } catch (\TypeError) {
        Calls::fetched($key);
        return;
    }
    $now = Script::$is_by_day ? \time() : (int) (\hrtime(true) / 1e9);
    if ($now !== Script::$second) {
        Script::turn($now);
    }
    Script::$buffer .= 'apcu_fetch ' . \serialize($key) . "\n";
    if (isset(Script::$buffer[65_536])) {
        Script::flush();
    }
});
\uopz_set_hook('apcu_store', static function (mixed $key = null, mixed $value = [], mixed $ttl = 0): void {
    try {
        Text::$string = $key;
        Text::$plain = $value;
    } catch (\TypeError) {
        Calls::stored(\func_num_args(), $key, $value, $ttl);
        return;
    }
    if ($ttl !== 0 || isset($value[1_000_000])) {
        Calls::stored(2, $key, $value, $ttl);
        return;
    }
    $now = Script::$is_by_day ? \time() : (int) (\hrtime(true) / 1e9);
    if ($now !== Script::$second) {
        Script::turn($now);
    }
    Script::$buffer .= 'apcu_store ' . \serialize($key) . ' ' . \serialize($value) . "\n";
    if (isset(Script::$buffer[65_536])) {
        Script::flush();
    }
});

foreach (\array_diff(Calls::WORDS, ['apcu_fetch', 'apcu_store']) as $word) {
    \uopz_set_hook($word, static function (mixed ...$args) use ($word): void {
        Calls::made($word, $args);
    });
}
