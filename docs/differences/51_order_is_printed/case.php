<?php // SPDX-License-Identifier: MIT
if (pcntl_fork() == 0) {
    apcu_store('a', 'child');
} else {
    apcu_store('a', 'parent');
    pcntl_wait($status);
    echo apcu_fetch('a'), "\n";
}
