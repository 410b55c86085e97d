<?php // SPDX-License-Identifier: MIT
// apc.shm_size=32M
foreach (['a', 'b', 'c', 'd'] as $key) apcu_store($key, 1);
apcu_delete('c');
apcu_delete('a');
$sma = apcu_sma_info();
var_dump($sma['seg_size']);
foreach ($sma['block_lists'][0] as $block) echo $block['offset'], "\n";
