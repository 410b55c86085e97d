<?php // SPDX-License-Identifier: MIT
foreach (['ab', 'b'] as $key) apcu_store($key, 1);
foreach (['#^a#', '{b $}x', '/^A/iu', ['b', 'c']] as $search)
    foreach (new APCUIterator($search) as $key => $row) echo $key, "\n";
