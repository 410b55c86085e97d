<?php // SPDX-License-Identifier: MIT

// php cost.php COUNT [PROCESSES]: stores and fetches that number of values of 100 bytes; of several processes, each has an
// equal part of them.

declare(strict_types=1);

[$count, $processes] = [(int) $argv[1], (int) ($argv[2] ?? 1)];
for ($process = 1; $process < $processes && pcntl_fork() !== 0; $process++);
$value = str_repeat('x', 100);
for ($i = $process - 1; $i < $count; $i += $processes) {
    apcu_store("key:$i", $value);
    apcu_fetch("key:$i");
}
while ($processes > 1 && pcntl_wait($status) > 0);
