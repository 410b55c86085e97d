<?php // SPDX-License-Identifier: MIT
// apc.shm_size=1M
apcu_store('a', 1);
apcu_store('b', str_repeat('x', 600000));
var_dump(apcu_add('a', str_repeat('x', 600000)));
var_dump(apcu_exists('b'));
