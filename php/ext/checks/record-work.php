<?php // SPDX-License-Identifier: MIT

// php record-work.php PROCESSES CALLS SEED: PROCESSES processes make CALLS random calls each, on the same keys. Values have
// up to some thousand bytes, rows live for a second or two, and some calls wait a little.

declare(strict_types=1);

[, $processes, $calls, $seed] = array_map(intval(...), $argv);
$children = [];
for ($i = 0; $i < $processes; $i++) {
    $child = pcntl_fork();
    if ($child === 0) {
        mt_srand($seed + $i);
        for ($n = 0; $n < $calls; $n++) {
            work('k' . mt_rand(0, 60), 'n' . mt_rand(0, 5));
            if ($n % intdiv($calls, 4) === 0) {
                usleep(mt_rand(300_000, 900_000));
            }
        }
        exit;
    }
    $children[] = $child;
}
foreach ($children as $child) {
    pcntl_waitpid($child, $status);
}

function work(string $key, string $number): void
{
    match (mt_rand(0, 15)) {
        0, 1, 2 => apcu_store($key, str_repeat(chr(mt_rand(0, 255)), mt_rand(0, 60) ** 2), mt_rand(0, 2)),
        3 => apcu_store($key, [mt_rand(), 'x' => 1.5, 'y' => [$key => null]], mt_rand(-1, 3)),
        4 => apcu_store([$key => mt_rand() / 7, $number => mt_rand(0, 9)]),
        5 => apcu_add($key, new ArrayObject([$key]), 1),
        6 => apcu_entry($key, fn (string $key): string => "made for $key", 2),
        7 => apcu_delete($key),
        8, 9 => apcu_inc($number, mt_rand(-5, 5), $done, 1),
        10 => apcu_cas($number, mt_rand(0, 9), mt_rand()),
        11 => apcu_exists([$key, $number]),
        12 => mt_rand(0, 400) === 0 ? apcu_clear_cache() : apcu_dec($key),
        13 => mt_rand(0, 100) === 0 ? apcu_delete(new APCUIterator('/^k1/')) : apcu_fetch($number),
        default => apcu_fetch([$key, 'k' . mt_rand(0, 60)]),
    };
}
