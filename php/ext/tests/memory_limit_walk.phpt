--TEST--
memory_limit reached inside a walk or a callback leaves the lock free and the cache whole
--INI--
apc.enabled=1
apc.enable_cli=1
apc.shm_size=128M
--SKIPIF--
<?php
if (!function_exists('pcntl_fork') || !function_exists('posix_kill')) die('skip pcntl and posix are needed');
require __DIR__ . '/common.inc';
if (!is_ours()) die('skip APCu keeps its lock');
?>
--FILE--
<?php
require __DIR__ . '/common.inc';
require __DIR__ . '/little.inc';

with_little('walk', function () {
    foreach (new APCUIterator('/^row/', APC_ITER_ALL, 1000) as $row) {
        $kept[] = $row;
    }
});
with_little('walk over keys', fn () => iterator_to_array(new APCUIterator(null, APC_ITER_KEY, 100000)));
with_little('cache_info', fn () => apcu_cache_info());
with_little('entry', fn () => apcu_entry('text', fn () => 1));
with_little('in a callback', fn () => apcu_entry('made', fn () => apcu_fetch('text')));

var_dump(strlen(apcu_fetch('text')), count(apcu_fetch('list')), apcu_fetch('row 399') === str_repeat('y', 50000));
var_dump(apcu_exists('made'), apcu_cache_info(true)['num_entries'] > 50000);
?>
--EXPECT--
walk: no memory, free
walk over keys: no memory, free
cache_info: no memory, free
entry: no memory, free
in a callback: no memory, free
int(20971520)
int(500000)
bool(true)
bool(false)
bool(true)
