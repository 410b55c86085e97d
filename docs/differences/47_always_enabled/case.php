<?php // SPDX-License-Identifier: MIT
// apc.enable_cli=0
var_dump(apcu_enabled(), apcu_store('a', 1), apcu_fetch('a'));
