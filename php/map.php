<?php // SPDX-License-Identifier: MIT

// php map.php OUTPUT > map.svg
// Draws the map that apcu_run printed with --map 1. In OUTPUT more may precede it, such as replies and a journal.

declare(strict_types=1);

namespace ApcuRecord;

require __DIR__ . '/lines.php';
require __DIR__ . '/report/map.php';

help($argv);
count($argv) === 2 || give_up('usage: php map.php OUTPUT > map.svg');
$lines = lines_of(opened($argv[1]));
reaches_map($lines) || give_up("$argv[1] has no map: play with --map 1");
[$cells] = map_of($lines);
$cells->end > 0 || give_up("$argv[1]: its map is empty");
put(STDOUT, map_picture($cells));
