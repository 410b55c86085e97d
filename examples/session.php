<?php // SPDX-License-Identifier: MIT
apcu_store('session:abc', ['user' => 42], 2);
var_dump(apcu_fetch('session:abc')['user']);
sleep(3);
var_dump(apcu_fetch('session:abc'));
