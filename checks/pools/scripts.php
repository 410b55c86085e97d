<?php // SPDX-License-Identifier: MIT

// php scripts.php moment|seconds SEED COUNT: a script of one worker with COUNT random calls of three pools, whose keys
// are few, and with look-ups of keys of the cache. With `seconds` some lines set the time.

declare(strict_types=1);

[, $how, $seed, $count] = $argv;
mt_srand((int) $seed);
echo "worker\n";
$now = 0;
for ($i = 0; $i < (int) $count; $i++) {
    if ($how === 'seconds' && $i % 40 === 39) {
        $now += mt_rand(1, 2);
        echo "time i:$now;\n";
    }
    echo call(mt_rand(0, 39)), "\n";
}

function call(int $kind): string
{
    $pool = ' ' . serialize(name());
    return match (true) {
        $kind < 9 => "pool_get$pool " . serialize(key_of_pool()) . maybe(plain()),
        $kind < 18 => "pool_set$pool " . serialize(key_of_pool()) . ' ' . serialize(value(2)) . ttl(),
        $kind < 21 => "pool_delete$pool " . serialize(key_of_pool()),
        $kind < 22 => "pool_clear$pool",
        $kind < 26 => "pool_get_multiple$pool " . serialize(keys()) . maybe(plain()),
        $kind < 30 => "pool_set_multiple$pool " . serialize(pairs()) . ttl(),
        $kind < 32 => "pool_delete_multiple$pool " . serialize(keys()),
        $kind < 36 => "pool_has$pool " . serialize(key_of_pool()),
        $kind < 38 => 'apcu_fetch ' . serialize(row()),
        $kind < 39 => 'apcu_exists ' . serialize(row()),
        default => 'apcu_store ' . serialize(row()) . ' ' . serialize(value(1)),
    };
}

/** One of the pools; a name is the front of another, and a point is none in a pattern. */
function name(): string
{
    return ['p', 'pp', 'p.'][mt_rand(0, 2)];
}

function key_of_pool(): string
{
    return ['a', 'b', 'A', '7', '-3', '00', 'a b', "x\xff\0y", str_repeat('k', 200)][mt_rand(0, 8)];
}

/** A key of the cache, in a pool or outside. */
function row(): string
{
    return ['', '{p}', '{pp}', '{q}'][mt_rand(0, 3)] . key_of_pool();
}

function keys(): array
{
    $keys = [];
    for ($i = mt_rand(0, 4); $i > 0; $i--) {
        $keys[] = key_of_pool();
    }
    return $keys;
}

function pairs(): array
{
    $pairs = [];
    for ($i = mt_rand(0, 4); $i > 0; $i--) {
        $pairs[key_of_pool()] = value(1);
    }
    return $pairs;
}

function plain(): mixed
{
    return [null, true, false, 0, -1, PHP_INT_MIN, '', "i:5;\n", str_repeat('yz', 500)][mt_rand(0, 8)];
}

/** A value of at most this many levels. */
function value(int $levels): mixed
{
    $kind = $levels > 0 ? mt_rand(0, 4) : 0;
    if ($kind < 3) {
        return plain();
    }
    $members = [];
    for ($i = mt_rand(0, 3); $i > 0; $i--) {
        $members[['x', '', '5', '-0', 'y z'][mt_rand(0, 4)]] = value($levels - 1);
    }
    return $kind === 3 ? $members : (object) $members;
}

/** A last argument that may be left out. */
function maybe(mixed $value): string
{
    return mt_rand(0, 1) === 1 ? ' ' . serialize($value) : '';
}

function ttl(): string
{
    return ['', '', ' N;', ' i:1;', ' i:2;', ' i:1000;', ' i:0;', ' i:-5;'][mt_rand(0, 7)];
}
