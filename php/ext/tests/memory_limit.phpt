--TEST--
memory_limit reached inside a call leaves the lock free and the cache whole
--INI--
apc.enabled=1
apc.enable_cli=1
apc.shm_size=128M
--SKIPIF--
<?php
if (!function_exists('pcntl_fork') || !function_exists('posix_kill')) die('skip pcntl and posix are needed');
?>
--FILE--
<?php
require __DIR__ . '/common.inc';
require __DIR__ . '/little.inc';

with_little('fetch a text', fn () => apcu_fetch('text'));
with_little('fetch a list', fn () => apcu_fetch('list'));
with_little('fetch many', fn () => apcu_fetch(array_map(fn ($i) => "row $i", range(0, 399))));
with_little('store a list', function () {
    $one = str_repeat('z', 100000);
    apcu_store('list', array_fill(0, 100, $one));
});
var_dump(strlen(apcu_fetch('text')), count(apcu_fetch('list')), apcu_fetch('row 399') === str_repeat('y', 50000));
?>
--EXPECT--
fetch a text: no memory, free
fetch a list: no memory, free
fetch many: no memory, free
store a list: no memory, free
int(20971520)
int(500000)
bool(true)
