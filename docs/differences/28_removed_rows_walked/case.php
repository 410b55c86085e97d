<?php // SPDX-License-Identifier: MIT
class Row { function __construct(public $key) {} function __wakeup() { apcu_delete($this->key); } }
foreach (['a', 'b', 'c'] as $key) apcu_store($key, new Row($key));
foreach (['a', 'b', 'c'] as $key) apcu_fetch($key);
$left = 5;
foreach (new APCUIterator(null, APC_ITER_KEY, 100, APC_LIST_DELETED) as $key => $row)
    if ($left--) echo $key, "\n";
    else break;
