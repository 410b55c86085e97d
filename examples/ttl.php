<?php // SPDX-License-Identifier: MIT
foreach (['a', 'b', 'c'] as $key) apcu_store($key, str_repeat('x', 300_000));
sleep(2);
apcu_fetch('a');
sleep(1);
apcu_store('d', str_repeat('x', 300_000));
echo implode(' ', array_keys(apcu_exists(['a', 'b', 'c', 'd']))), "\n";
