--TEST--
With apc.use_request_time the time of a request stands
--INI--
apc.enabled=1
apc.enable_cli=1
apc.use_request_time=1
--FILE--
<?php
apcu_store('a', 1, 1);
$told = apcu_key_info('a');
var_dump($told['creation_time'] === $_SERVER['REQUEST_TIME'], $told['mtime'] === $_SERVER['REQUEST_TIME']);
sleep(3);
var_dump(apcu_exists('a'));
?>
--EXPECT--
bool(true)
bool(true)
bool(true)
