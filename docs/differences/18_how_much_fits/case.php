<?php // SPDX-License-Identifier: MIT
apcu_store('a', 1);
apcu_store('b', array_fill(0, 1000, [1]));
foreach (apcu_cache_info()['cache_list'] as $row)
    echo $row['info'], ' ', $row['mem_size'], "\n";
