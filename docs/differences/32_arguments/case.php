<?php // SPDX-License-Identifier: MIT
echo serialize(apcu_store(['a' => 1], 7)), "\n";
var_dump(apcu_store('b', 1, '10'));
var_dump(apcu_key_info('b')['ttl']);
