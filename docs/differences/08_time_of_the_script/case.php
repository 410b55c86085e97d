<?php // SPDX-License-Identifier: MIT
apcu_store('a', 1, 1);
var_dump(apcu_exists('a'));
sleep(3);
var_dump(apcu_exists('a'));
