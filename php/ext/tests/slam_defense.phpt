--TEST--
With apc.slam_defense a key that another process stored just now is not stored again
--INI--
apc.enabled=1
apc.enable_cli=1
apc.slam_defense=1
apc.use_request_time=1
--SKIPIF--
<?php
if (!function_exists('pcntl_fork') || !function_exists('posix_kill')) die('skip pcntl and posix are needed');
?>
--FILE--
<?php
require __DIR__ . '/common.inc';

var_dump(apcu_store('a', 1), apcu_store('a', 2), apcu_store('b', 1));
echo in_child(fn () => exit(apcu_store('b', 2) ? 1 : 0)), "\n";
echo in_child(fn () => exit(apcu_store('c', 2) && apcu_store('b', 2) ? 0 : 1)), "\n";
var_dump(apcu_fetch(['a', 'b', 'c']));
?>
--EXPECT--
bool(true)
bool(true)
bool(true)
ended 0
ended 0
array(3) {
  ["a"]=>
  int(2)
  ["b"]=>
  int(2)
  ["c"]=>
  int(2)
}
