<?php // SPDX-License-Identifier: MIT
apcu_store('a', 5);
var_dump(apcu_inc('a', '2'));
var_dump(apcu_inc('a', 1.0));
