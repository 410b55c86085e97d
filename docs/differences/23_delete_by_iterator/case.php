<?php // SPDX-License-Identifier: MIT
foreach (['a1', 'a2'] as $key) apcu_store($key, 1);
$all = new APCUIterator('/^a/');
foreach ($all as $key => $row) echo $key, "\n";
var_dump(apcu_delete($all), count(apcu_exists(['a1', 'a2'])));
var_dump(apcu_delete(new APCUIterator('/^a/')), count(apcu_exists(['a1', 'a2'])));
