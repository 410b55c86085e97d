<?php // SPDX-License-Identifier: MIT
apcu_store('page', str_repeat('x', 1_000_000));
if (pcntl_fork() == 0) {
    apcu_delete('page');
} else {
    $page = apcu_fetch('page');
    var_dump($page === false || strlen($page) === 1_000_000);
    pcntl_wait($status);
}
