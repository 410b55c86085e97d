<?php // SPDX-License-Identifier: MIT
$v = new stdClass;
$v->n = 1;
echo serialize(apcu_store(['a' => $v, 'b' => $v])), "\n";
echo serialize(apcu_fetch(['a', 'b'])), "\n";
