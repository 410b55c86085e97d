<?php // SPDX-License-Identifier: MIT
class Row { function __construct(public $key) {} function __wakeup() { apcu_delete($this->key); } }
foreach (['a', 'b'] as $key) apcu_store($key, new Row($key));
foreach (['a', 'b'] as $key) apcu_fetch($key);
foreach (apcu_cache_info()['deleted_list'] as $row) echo $row['info'], "\n";
