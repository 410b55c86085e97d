<?php // SPDX-License-Identifier: MIT
apcu_store('a', 1, 1);
sleep(3);
var_dump(apcu_exists('a'), apcu_key_info('a')['ttl']);
