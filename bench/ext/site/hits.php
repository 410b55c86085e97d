<?php // SPDX-License-Identifier: MIT

// Misses in a hundred fetches since all rows last went, by a call or to make room, how often rows were dropped to
// make room, and how many rows there are. With `?clear` it clears first.

declare(strict_types=1);

if (isset($_GET['clear'])) {
    apcu_clear_cache();
}
$told = apcu_cache_info(true);
$all = $told['num_hits'] + $told['num_misses'];
printf("%.2f %d %d\n", $all > 0 ? 100 * $told['num_misses'] / $all : 0, $told['expunges'], $told['num_entries']);
