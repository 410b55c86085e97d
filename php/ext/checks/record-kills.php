<?php // SPDX-License-Identifier: MIT

// php record-kills.php KILLS: four processes call the cache, each call being one event, until one of them is killed; another
// one takes its place, until there were KILLS kills. Then it prints for each process how many of its calls had returned.

declare(strict_types=1);

[, $kills] = array_map(intval(...), $argv);
$counts = shmop_open(ftok(__FILE__, 'k'), 'c', 0600, 8 * 4);
shmop_delete($counts);
$children = $answered = [];
for ($n = -4; $n < $kills; $n++) {
    $at = $n < 0 ? $n + 4 : mt_rand(0, 3);
    if ($n >= 0) {
        usleep(mt_rand(1000, 40_000));
        ended($children[$at], $at);
    }
    shmop_write($counts, pack('P', 0), 8 * $at);
    $children[$at] = pcntl_fork();
    if ($children[$at] === 0) {
        work($at);
    }
}
array_walk($children, ended(...));
foreach ($answered as $process => $count) {
    echo "$process $count\n";
}

function ended(int $process, int $at): void
{
    global $answered, $counts;
    posix_kill($process, SIGKILL);
    pcntl_waitpid($process, $status);
    $answered[$process] = unpack('P', shmop_read($counts, 8 * $at, 8))[1];
}

/** Calls until it is killed, but not without end. */
function work(int $at): never
{
    global $counts;
    mt_srand(getmypid());
    $end = microtime(true) + 60;
    for ($n = 1; microtime(true) < $end; $n++) {
        $key = 'k' . mt_rand(0, 50);
        match (mt_rand(0, 6)) {
            0 => apcu_store($key, str_repeat('x', mt_rand(0, 40_000))),
            1 => apcu_inc('n' . mt_rand(0, 5)),
            2 => apcu_exists($key),
            3 => apcu_delete($key),
            4 => apcu_store('large', str_repeat('y', mt_rand(0, 30) === 0 ? 1_500_000 : 100)),
            default => apcu_fetch($key),
        };
        shmop_write($counts, pack('P', $n), 8 * $at);
    }
    exit;
}
