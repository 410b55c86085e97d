<?php // SPDX-License-Identifier: MIT
$is_child = false;
for ($n = 0; $n < 65 && !$is_child; $n++) $is_child = pcntl_fork() == 0;
if ($is_child) {
    apcu_inc('n');
} else {
    while (pcntl_wait($status) > 0);
    var_dump(apcu_fetch('n'));
}
