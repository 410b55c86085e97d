<?php // SPDX-License-Identifier: MIT
apcu_store('a', 1);
$all = new APCUIterator();
foreach ($all as $row) echo implode(' ', array_keys($row)), "\n";
echo $all->getTotalCount(), ' ', $all->getTotalHits(), ' ', $all->getTotalSize(), "\n";
