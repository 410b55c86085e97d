<?php // SPDX-License-Identifier: MIT
foreach (['a', 'b', 'c', 'd'] as $key) apcu_store($key, str_repeat('x', 300_000));
echo implode(' ', array_keys(apcu_exists(['a', 'b', 'c', 'd']))), "\n";
echo apcu_cache_info(true)['expunges'], "\n";
