<?php // SPDX-License-Identifier: MIT
apcu_store('a', 1);
$all = apcu_cache_info();
echo implode(' ', array_keys($all)), "\n";
echo implode(' ', array_keys($all['cache_list'][0])), "\n";
echo gettype($all['num_hits']), ' ', gettype($all['mem_size']), "\n";
