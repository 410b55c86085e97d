<?php // SPDX-License-Identifier: MIT

// Times of a fetch of large values, in one process: php kept.php names|fetch|changed|store|include|memory FOLDER
// `fetch` is from the cache, `changed` a store and a fetch, and `include` that of a PHP file in FOLDER which returns the
// value. They print nanoseconds of the processor in one line, the least of ROUNDS rounds for each value. `memory` prints
// how many KB of its own a process has more after it has fetched 50 configurations three times each.

declare(strict_types=1);

const ROUNDS = 15;

[, $what, $folder] = $argv;
mt_srand(7);

function word(int $length): string
{
    $word = '';
    while (strlen($word) < $length) {
        $word .= chr(mt_rand(97, 122));
    }
    return $word;
}

/** An array whose text of serialize has about this many bytes. */
function configuration(int $bytes): array
{
    for ($all = [], $size = 0; $size < $bytes; $size += strlen(serialize($part))) {
        $part = ['enabled' => true, 'driver' => 'default', 'options' => ['timeout' => 2.5, 'retry' => [1, 2, 3]]];
        for ($i = 0; $i < 8; $i++) {
            $leaf = [];
            for ($j = 0; $j < 6; $j++) {
                $leaf[word(mt_rand(5, 14))] = match (mt_rand(0, 5)) {
                    0 => true,
                    1 => mt_rand(0, 100000),
                    2 => null,
                    3 => [word(8), word(9)],
                    default => 'App\\Service\\' . word(mt_rand(8, 30)),
                };
            }
            $part[word(mt_rand(6, 16))] = $leaf;
        }
        $all['section.' . word(10)] = $part;
    }
    return $all;
}

$values = [
    '1,000 integers' => range(1, 1000),
    'a configuration of 200 KB' => configuration(200 * 1024),
    'a map of ten' => ['id' => 7, 'name' => 'some name here', 'mail' => 'a@example.org', 'roles' => ['USER', 'ADMIN'], 'ok' => true,
        'x' => null, 'f' => 1.5, 'when' => 1700000000, 'lang' => 'en', 'tz' => 'Europe/Berlin'],
    'a string of 1 MB' => str_repeat(word(1024), 1024),
];

/** Nanoseconds for which the processor had this process. */
function spent(): float
{
    $used = getrusage();
    return 1e9 * ($used['ru_utime.tv_sec'] + $used['ru_stime.tv_sec']) + 1e3 * ($used['ru_utime.tv_usec'] + $used['ru_stime.tv_usec']);
}

/** Nanoseconds of one call of a loop of a few milliseconds. */
function least(callable $loop): float
{
    $calls = 10;
    $begun = spent();
    $loop($calls);
    $calls = (int) max(10, min(20000, 10 * 5e6 / max(1, spent() - $begun)));
    $least = INF;
    for ($round = 0; $round < ROUNDS; $round++) {
        $begun = spent();
        $loop($calls);
        $least = min($least, (spent() - $begun) / $calls);
    }
    return $least;
}

function own_memory(): int
{
    preg_match('/Private_Dirty:\s+(\d+)/', file_get_contents('/proc/self/smaps_rollup'), $found);
    return (int) $found[1];
}

if ($what === 'names') {
    echo implode("\n", array_keys($values)), "\n";
    exit(0);
}
if ($what === 'memory') {
    for ($i = 0; $i < 50; $i++) {
        apcu_store("value $i", $values['a configuration of 200 KB'] + ["key $i" => $i]);
    }
    unset($values);
    $id = pcntl_fork();
    if ($id !== 0) {
        pcntl_waitpid($id, $status);
        exit(0);
    }
    gc_mem_caches();
    $before = own_memory();
    for ($i = 0; $i < 150; $i++) {
        $value = apcu_fetch('value ' . $i % 50);
    }
    unset($value);
    gc_mem_caches();
    echo own_memory() - $before, "\n";
    exit(0);
}

$times = [];
foreach (array_values($values) as $i => $value) {
    $key = "value $i";
    $file = "$folder/value$i.php";
    if ($what === 'include') {
        file_put_contents($file, '<?php return ' . var_export($value, true) . ';');
        touch($file, time() - 10);
        $same = include $file;
    } else {
        apcu_store($key, $value);
        $same = apcu_fetch($key);
    }
    if ($same !== $value) {
        fwrite(STDERR, "another value\n");
        exit(1);
    }
    unset($same);
    $times[] = match ($what) {
        'fetch' => least(function (int $n) use ($key) { for ($i = 0; $i < $n; $i++) { $it = apcu_fetch($key); } }),
        'include' => least(function (int $n) use ($file) { for ($i = 0; $i < $n; $i++) { $it = include $file; } }),
        'store' => least(function (int $n) use ($key, $value) { for ($i = 0; $i < $n; $i++) { apcu_store($key, $value); } }),
        'changed' => least(function (int $n) use ($key, $value) { for ($i = 0; $i < $n; $i++) { apcu_store($key, $value); $it = apcu_fetch($key); } }),
    };
}
echo implode(' ', array_map(fn (float $time): string => sprintf('%.0f', $time), $times)), "\n";
