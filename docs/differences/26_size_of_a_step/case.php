<?php // SPDX-License-Identifier: MIT
foreach (['a', 'b'] as $key) apcu_store($key, 1);
foreach (new APCUIterator(null, APC_ITER_KEY, 0) as $key => $row) echo $key, "\n";
