<?php // SPDX-License-Identifier: MIT
enum S { case A; }
apcu_store('a', S::A);
var_dump(apcu_fetch('a') === S::A);
echo serialize(S::A), "\n";
