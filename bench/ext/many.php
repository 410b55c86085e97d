<?php // SPDX-License-Identifier: MIT

// Times of calls that depend on how many rows there are, in one process: php many.php WORK ROWS prints a line for each
// figure, its nanoseconds and its name. WORK is
//   churn   stores of new rows of 16 to 2,000 bytes in a cache that is kept four fifths full: before each, rows that are
//           drawn at random are deleted until it finds room below that
//   leave   all rows dropped by a clear, and all expired rows dropped by a store that needs their room
//   stay    expired rows dropped by a store that needs their room, while one of ten rows, then one of two, has not expired
//   info    the calls that return information about the cache, when each tenth row has left a gap

declare(strict_types=1);

[, $work, $rows] = $argv;
$rows = (int) $rows;

function timed(callable $call): int
{
    $begun = hrtime(true);
    $call();
    return hrtime(true) - $begun;
}

/** Stores ROWS rows, and returns their keys. One of STAY has no ttl. */
function fill(int $rows, int $ttl, int $stay = PHP_INT_MAX): array
{
    for ($i = 0; $i < $rows; $i++) {
        $keys[] = $key = 'k' . (1000000 + $i);
        apcu_store($key, $i % 2 ? 'xxxxxxxx' : $i, $i % $stay === $stay - 1 ? 0 : $ttl);
    }
    return $keys;
}

/** Stores texts until less than 200,000 bytes are free. */
function fill_rest(int $ttl): void
{
    while (($left = (int) apcu_sma_info(true)['avail_mem']) > 200000) {
        apcu_store("rest$left", str_repeat('z', intdiv($left - 100000, 2)), $ttl);
    }
}

function churn(int $stores): void
{
    $avail = (int) apcu_sma_info(true)['avail_mem'];
    $least = intdiv($avail, 5);
    for ($bytes = 16; $bytes <= 2000; $bytes += 32) {
        $texts[] = str_repeat('x', $bytes);
    }
    $keys = $times = [];
    for ($i = 0; count($times) < $stores; $i++) {
        while (($is_full = apcu_sma_info(true)['avail_mem'] < $least) && $keys) {
            $at = mt_rand(0, count($keys) - 1);
            apcu_delete($keys[$at]);
            $keys[$at] = $keys[count($keys) - 1];
            array_pop($keys);
            $was_full = true;
        }
        $key = "k$i";
        $text = $texts[mt_rand(0, count($texts) - 1)];
        $took = timed(function () use ($key, $text, &$keys) {
            if (apcu_store($key, $text)) {
                $keys[] = $key;
            }
        });
        if (isset($was_full)) {
            $times[] = $took;
        }
    }
    sort($times);
    foreach (['the median' => 0.5, 'one in a hundred takes more' => 0.99, 'one in a thousand takes more' => 0.999] as $name => $part) {
        printf("%d a store, four fifths full: %s\n", $times[(int) ($part * (count($times) - 1))], $name);
    }
}

function leave(int $rows): void
{
    fill($rows, 0);
    printf("%d %s rows dropped by a clear\n", timed(apcu_clear_cache(...)), number_format($rows));
    fill($rows, 1);
    fill_rest(0);
    sleep(3);
    $took = timed(fn() => apcu_store('new', str_repeat('z', 300000)));
    printf("%d %s expired rows dropped by a store\n", $took, number_format($rows - apcu_cache_info(true)['num_entries']));
}

function stay(int $rows): void
{
    foreach ([10, 2] as $stay) {
        fill($rows, 1, $stay);
        // The rest expires, too: APCu drops all rows if half of its memory is not free after it has dropped the expired ones.
        fill_rest(1);
        sleep(3);
        $took = timed(fn() => apcu_store('new', str_repeat('z', 300000)));
        $kept = intdiv($rows, $stay);
        if (apcu_cache_info(true)['num_entries'] != $kept + 1) {
            fwrite(STDERR, "another number of rows was kept\n");
            exit(1);
        }
        printf("%d %s expired rows dropped by a store, %s kept\n", $took, number_format($rows - $kept), number_format($kept));
        apcu_clear_cache();
    }
}

function info(int $rows): void
{
    foreach (fill($rows, 0) as $i => $key) {
        if ($i % 10 === 0) {
            apcu_delete($key);
        }
    }
    foreach (['apcu_cache_info', 'apcu_sma_info'] as $call) {
        foreach ([false, true] as $limited) {
            $least = PHP_INT_MAX;
            for ($round = 0; $round < 7; $round++) {
                $least = min($least, timed(fn() => $call($limited)));
            }
            printf("%d %s(%s) of %s rows\n", $least, $call, $limited ? 'true' : '', number_format(intdiv($rows * 9, 10)));
        }
    }
}

mt_srand(7);
$work($rows);
