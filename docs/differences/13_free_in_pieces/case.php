<?php // SPDX-License-Identifier: MIT
// apc.shm_size=1M
for ($i = 0; apcu_sma_info(true)['avail_mem'] > 2000; $i++)
    apcu_store("k$i", str_repeat('x', 1000));
for ($j = 0; $j < $i; $j++)
    if ($j % 3) apcu_delete("k$j");
var_dump(apcu_store('big', str_repeat('x', 5000)));
var_dump(apcu_exists('k0'));
