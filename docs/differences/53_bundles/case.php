<?php // SPDX-License-Identifier: MIT
// apc.preload_path=data
var_dump(apcu_fetch('a'), apcu_fetch('b'));
