<?php // SPDX-License-Identifier: MIT
$a = [];
$a[0] = &$a;
apcu_store('a', $a);
echo serialize(apcu_fetch('a')), "\n";
apcu_store('b', unserialize('a:1:{i:0;R:1;}'));
echo serialize(apcu_fetch('b')), "\n";
