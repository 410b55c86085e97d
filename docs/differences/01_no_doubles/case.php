<?php // SPDX-License-Identifier: MIT
apcu_store('a', 1.5);
var_dump(apcu_fetch('a'));
