<?php // SPDX-License-Identifier: MIT
// apc.ttl=1
apcu_store('Ez', 1);
apcu_store('FY', 2);
sleep(3);
var_dump(apcu_exists('FY'));
apcu_store('Ez', 3);
var_dump(apcu_exists('FY'));
