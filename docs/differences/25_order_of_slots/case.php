<?php // SPDX-License-Identifier: MIT
foreach (['apple', 'pear', 'plum'] as $key) apcu_store($key, 1);
foreach (new APCUIterator() as $key => $row) echo $key, "\n";
