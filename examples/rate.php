<?php // SPDX-License-Identifier: MIT
$is_child = false;
for ($n = 0; $n < 4 && !$is_child; $n++) $is_child = pcntl_fork() == 0;
if ($is_child) {
    echo apcu_inc('rate:10.1', 1, $is_counted, 60) . "\n";
} else {
    while (pcntl_wait($status) > 0);
}
