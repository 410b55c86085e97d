<?php // SPDX-License-Identifier: MIT

// Calls for misses.sh to count, in one process: php misses.php VALUE ROWS CALLS. Rows with a VALUE of `integer` or `text`
// (100 bytes) are added, and then each work is CALLS calls of keys in an order of its own, so that no row is near the one
// of the call before. apcu_enabled() before each work ends the part of the profile before it.

declare(strict_types=1);

[, $value, $rows, $calls] = $argv;
[$rows, $calls] = [(int) $rows, (int) $calls];
$text = str_repeat('x', 100);
$all = [
    'integer' => [
        'fetch' => function (string $key, int $i): void { apcu_fetch($key); },
        'key_info' => function (string $key, int $i): void { apcu_key_info($key); },
        'store' => function (string $key, int $i): void { apcu_store($key, $i); },
        'delete and store' => function (string $key, int $i): void { apcu_delete($key); apcu_store($key, $i); },
    ],
    'text' => [
        'store' => function (string $key, int $i) use ($text): void { apcu_store($key, $text); },
    ],
];

mt_srand(7);
for ($i = 0; $i < $rows; $i++) {
    $keys[] = str_pad("i$i", 10, ':');
}
shuffle($keys);
foreach ($keys as $i => $key) {
    if (!apcu_add($key, $value === 'text' ? $text : $i)) {
        fwrite(STDERR, "the cache is too small\n");
        exit(1);
    }
}
foreach ($all[$value] as $call) {
    shuffle($keys);
    apcu_enabled();
    for ($i = 0; $i < $calls; $i++) {
        $call($keys[$i % $rows], $i);
    }
}
apcu_enabled();
if (apcu_cache_info(true)['num_entries'] != $rows || apcu_cache_info(true)['expunges'] != 0) {
    fwrite(STDERR, "the cache is too small\n");
    exit(1);
}
