<?php // SPDX-License-Identifier: MIT
apcu_store('news', 'hello', 1);
sleep(3);
var_dump(apcu_fetch('news'));
