<?php // SPDX-License-Identifier: MIT
var_dump(apcu_entry('a', fn($key) => strlen($key) + 6));
try { apcu_entry('b', function () { throw new Exception('no value'); }); }
catch (Exception $e) { echo $e->getMessage(), "\n"; }
var_dump(apcu_exists(['a', 'b']));
