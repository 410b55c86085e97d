<?php // SPDX-License-Identifier: MIT

// php record-many.php EVENTS: makes that number of calls, of each ten one store, six fetches of rows and one of none, and two counts.

declare(strict_types=1);

[, $events] = array_map(intval(...), $argv);
$value = str_repeat('x', 100);
for ($n = 0; $n < $events; $n += 10) {
    $at = $n % 20_011;
    apcu_store("key:$at", $value);
    for ($i = 0; $i < 6; $i++) {
        apcu_fetch("key:$at");
    }
    apcu_fetch("none:$at");
    apcu_inc('visits');
    apcu_inc("views:$at");
}
