<?php // SPDX-License-Identifier: MIT
$v = null;
for ($i = 0; $i < 600; $i++) $v = [$v];
var_dump(apcu_store('a', $v));
var_dump(apcu_fetch('a') === $v);
