<?php // SPDX-License-Identifier: MIT
apcu_store('5', 'x');
var_dump(apcu_fetch(5));
var_dump(apcu_store(5, 'y'));
echo serialize(apcu_fetch([5])), "\n";
echo serialize(apcu_delete([5])), "\n";
