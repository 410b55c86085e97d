<?php // SPDX-License-Identifier: MIT
apcu_store('a', 1, 1);
if (pcntl_fork() == 0) {
    sleep(3);
    echo 'child ', serialize(apcu_exists('a')), "\n";
} else {
    pcntl_wait($status);
    echo 'parent ', serialize(apcu_exists('a')), "\n";
}
