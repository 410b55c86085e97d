<?php // SPDX-License-Identifier: MIT
apcu_store(['user:42' => 'Ann', 'user:43' => 'Bob', 'front' => 'hello']);
apcu_fetch('user:42');
foreach (new APCUIterator('/^user:/', APC_ITER_KEY | APC_ITER_NUM_HITS) as $row) echo "$row[key] $row[num_hits]\n";
echo (new APCUIterator())->getTotalCount(), "\n";
apcu_delete(new APCUIterator('/^USER/i'));
echo (new APCUIterator())->getTotalCount(), "\n";
