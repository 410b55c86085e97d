<?php // SPDX-License-Identifier: MIT
function nested(int $n) { return $n == 0 ? 7 : apcu_entry("k$n", fn() => nested($n - 1)); }
var_dump(nested(9));
