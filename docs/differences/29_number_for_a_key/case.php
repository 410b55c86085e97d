<?php // SPDX-License-Identifier: MIT
apcu_store('5', 'x');
$r = apcu_fetch(['5']);
echo serialize($r), "\n";
var_dump(isset($r['5']), isset($r[5]));
echo serialize(apcu_exists(['5'])), "\n";
