<?php // SPDX-License-Identifier: MIT
// apc.shm_size=1M
apcu_store('a', str_repeat('x', 600000));
var_dump(apcu_store('big', str_repeat('x', 2000000)));
var_dump(apcu_exists('a'));
