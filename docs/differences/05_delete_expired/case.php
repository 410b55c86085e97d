<?php // SPDX-License-Identifier: MIT
apcu_store('a', 1, 1);
apcu_store('b', 1, 1);
sleep(3);
var_dump(apcu_exists('a'));
var_dump(apcu_delete('a'));
echo serialize(apcu_delete(['b', 'c'])), "\n";
