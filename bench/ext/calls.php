<?php // SPDX-License-Identifier: MIT

// Times of PHP's calls of a cache, in one process: php calls.php KEY_BYTES ROWS names|times
// prints the calls' names, one a line, or their times, nanoseconds of the processor each, in one line: the least of so
// many rounds without the loop's own time. Keys are called in an order of their own, which is not the one in which their
// rows were stored, so that no row is right after the one of the call before.

declare(strict_types=1);

[, $key_bytes, $rows, $what] = $argv;
[$key_bytes, $rows] = [(int) $key_bytes, (int) $rows];
const ROUNDS = 7;

/** Keys of this many bytes, which begin with a letter of their family. */
function keys_of(string $family, int $bytes, int $count): array
{
    $keys = [];
    for ($i = 0; $i < $count; $i++) {
        $keys[] = str_pad("$family$i", $bytes, ':', STR_PAD_RIGHT);
    }
    mt_srand(7);
    shuffle($keys);
    return $keys;
}

function in_no_order(array $keys): array
{
    shuffle($keys);
    return $keys;
}

/** Nanoseconds for which the processor had this process. */
function spent(): float
{
    $used = getrusage();
    return 1e9 * ($used['ru_utime.tv_sec'] + $used['ru_stime.tv_sec']) + 1e3 * ($used['ru_utime.tv_usec'] + $used['ru_stime.tv_usec']);
}

/** Nanoseconds of one of this many calls. */
function least(callable $loop, int $calls): float
{
    $least = INF;
    for ($round = 0; $round < ROUNDS; $round++) {
        $begun = spent();
        $loop($calls);
        $least = min($least, spent() - $begun);
    }
    return $least / $calls;
}

$text = str_repeat('x', 100);
$page = str_repeat('y', 10000);
$large = str_repeat('z', 1000000);
$small = ['id' => 7, 'name' => 'somebody', 'tags' => ['a', 'b']];
$list = range(1, 1000);
$integers = keys_of('i', $key_bytes, $rows);
$texts = keys_of('s', $key_bytes, $rows);
$arrays = keys_of('a', $key_bytes, $rows);
$absent = keys_of('q', $key_bytes, $rows);
$mixed = keys_of('m', $key_bytes, $rows);
// The texts of 64 sizes, from 0 to 504 bytes, in no order.
$sizes = array_map(fn (int $i): string => str_repeat('w', 8 * ($i * 7 % 64)), range(0, 63));
$many = 20000;

// Each loop takes its keys one after another.
$all = [
    'exists, there' => [$integers, $many, function ($n) use ($integers, $rows) { for ($i = 0; $i < $n; $i++) { apcu_exists($integers[$i % $rows]); } }],
    'exists, not there' => [$absent, $many, function ($n) use ($absent, $rows) { for ($i = 0; $i < $n; $i++) { apcu_exists($absent[$i % $rows]); } }],
    'fetch, an integer' => [$integers, $many, function ($n) use ($integers, $rows) { for ($i = 0; $i < $n; $i++) { apcu_fetch($integers[$i % $rows]); } }],
    'fetch, 100 bytes' => [$texts, $many, function ($n) use ($texts, $rows) { for ($i = 0; $i < $n; $i++) { apcu_fetch($texts[$i % $rows]); } }],
    'fetch, a small array' => [$arrays, $many, function ($n) use ($arrays, $rows) { for ($i = 0; $i < $n; $i++) { apcu_fetch($arrays[$i % $rows]); } }],
    'fetch, not there' => [$absent, $many, function ($n) use ($absent, $rows) { for ($i = 0; $i < $n; $i++) { apcu_fetch($absent[$i % $rows]); } }],
    'fetch, ten integers at once' => [$integers, 2000, function ($n) use ($integers) { $ten = array_slice($integers, 0, 10); for ($i = 0; $i < $n; $i++) { apcu_fetch($ten); } }],
    'fetch, 10 KB' => [null, 5000, function ($n) { for ($i = 0; $i < $n; $i++) { apcu_fetch('page'); } }],
    'fetch, 1 MB' => [null, 50, function ($n) { for ($i = 0; $i < $n; $i++) { apcu_fetch('large'); } }],
    'fetch, 1,000 integers' => [null, 300, function ($n) { for ($i = 0; $i < $n; $i++) { apcu_fetch('list'); } }],
    'entry, there' => [$integers, $many, function ($n) use ($integers, $rows) { $make = fn () => 1; for ($i = 0; $i < $n; $i++) { apcu_entry($integers[$i % $rows], $make); } }],
    'inc' => [$integers, $many, function ($n) use ($integers, $rows) { for ($i = 0; $i < $n; $i++) { apcu_inc($integers[$i % $rows]); } }],
    'cas' => [null, $many, function ($n) { apcu_store('n', 0); for ($i = 0; $i < $n; $i++) { apcu_cas('n', $i, $i + 1); } }],
    'store over, an integer' => [$integers, $many, function ($n) use ($integers, $rows) { for ($i = 0; $i < $n; $i++) { apcu_store($integers[$i % $rows], $i); } }],
    'store over, 100 bytes' => [$texts, $many, function ($n) use ($texts, $rows, $text) { for ($i = 0; $i < $n; $i++) { apcu_store($texts[$i % $rows], $text); } }],
    'store over, a small array' => [$arrays, $many, function ($n) use ($arrays, $rows, $small) { for ($i = 0; $i < $n; $i++) { apcu_store($arrays[$i % $rows], $small); } }],
    'store over, one of 64 sizes' => [$mixed, $many, function ($n) use ($mixed, $rows, $sizes) { static $turn = 0; $turn += 11; for ($i = 0; $i < $n; $i++) { apcu_store($mixed[$i % $rows], $sizes[($i * 37 + $turn) % 64]); } }],
    'store over, 10 KB' => [null, 2000, function ($n) use ($page) { for ($i = 0; $i < $n; $i++) { apcu_store('page', $page); } }],
    'store over, 1 MB' => [null, 50, function ($n) use ($large) { for ($i = 0; $i < $n; $i++) { apcu_store('large', $large); } }],
    'store over, 1,000 integers' => [null, 300, function ($n) use ($list) { for ($i = 0; $i < $n; $i++) { apcu_store('list', $list); } }],
    'add, there' => [$integers, $many, function ($n) use ($integers, $rows) { for ($i = 0; $i < $n; $i++) { apcu_add($integers[$i % $rows], $i); } }],
    'delete and store' => [$integers, $many, function ($n) use ($integers, $rows) { for ($i = 0; $i < $n; $i++) { apcu_delete($integers[$i % $rows]); apcu_store($integers[$i % $rows], $i); } }],
    'key_info' => [$integers, $many, function ($n) use ($integers, $rows) { for ($i = 0; $i < $n; $i++) { apcu_key_info($integers[$i % $rows]); } }],
    'cache_info, limited' => [null, 2000, function ($n) { for ($i = 0; $i < $n; $i++) { apcu_cache_info(true); } }],
    'a walk over 1,000 rows, a row' => [null, 1000, function ($n) { foreach (new APCUIterator('/^i\d/', APC_ITER_KEY) as $row) { if (--$n <= 0) { break; } } }],
];
if ($what === 'names') {
    echo implode("\n", array_keys($all)), "\n";
    exit(0);
}

$filled = array_map('in_no_order', [$integers, $texts, $arrays, $mixed]);
for ($i = 0; $i < $rows; $i++) {
    if (!apcu_store($filled[0][$i], $i) || !apcu_store($filled[1][$i], $text) || !apcu_store($filled[2][$i], $small)
            || !apcu_store($filled[3][$i], $sizes[$i % 64])) {
        fwrite(STDERR, "the cache is too small\n");
        exit(1);
    }
}
apcu_store(['page' => $page, 'large' => $large, 'list' => $list, 'n' => 0]);
if (apcu_cache_info(true)['expunges'] > 0) {
    fwrite(STDERR, "the cache is too small\n");
    exit(1);
}
$times = [];
foreach ($all as [$keys, $calls, $loop]) {
    // What is taken off: the same loop over the same keys without a call.
    $alone = $keys === null ? 0 : least(function ($n) use ($keys, $rows) { for ($i = 0; $i < $n; $i++) { $keys[$i % $rows]; } }, $calls);
    $times[] = sprintf('%.0f', max(0, least($loop, $calls) - $alone));
}
echo implode(' ', $times), "\n";
