<?php // SPDX-License-Identifier: MIT
// apc.ttl=1
apcu_store('Ez', 1);
apcu_store('FY', 2);
sleep(3);
var_dump(apcu_exists('Ez'));
var_dump(apcu_add('FY', 3));
var_dump(apcu_exists('Ez'));
