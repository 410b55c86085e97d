<?php // SPDX-License-Identifier: MIT
// apc.use_request_time=1
apcu_store('a', 1, 1);
sleep(3);
var_dump(apcu_exists('a'));
