--TEST--
Room: a value that fits is stored, if need be in place of others; one that can't fit changes nothing
--INI--
apc.enabled=1
apc.enable_cli=1
apc.shm_size=1M
--SKIPIF--
<?php
require __DIR__ . '/common.inc';
if (!is_ours()) die('skip APCu drops by the sum of free bytes');
?>
--FILE--
<?php
// Full, and full of holes.
for ($i = 0; apcu_sma_info(true)['avail_mem'] > 2000; $i++) {
    apcu_store("k$i", str_repeat('x', 1000));
}
for ($j = 0; $j < $i; $j++) {
    if ($j % 3) {
        apcu_delete("k$j");
    }
}
var_dump(apcu_store('large', str_repeat('y', 2 * 1024 * 1024)), apcu_exists('k0'));
var_dump(apcu_add('k0', str_repeat('y', 900000)), apcu_fetch('k0') === str_repeat('x', 1000));
var_dump(apcu_store('big', str_repeat('y', 5000)), apcu_fetch('big') === str_repeat('y', 5000));
var_dump(apcu_cache_info(true)['expunges']);

// Whatever comes, it is stored, and what is found was stored.
mt_srand(1);
$wrong = 0;
for ($i = 0; $i < 20000; $i++) {
    $key = 'r' . mt_rand(0, 300);
    $size = mt_rand(0, 20) === 0 ? mt_rand(0, 300000) : mt_rand(0, 4000);
    $wrong += apcu_store($key, str_repeat($key, intdiv($size, strlen($key)))) ? 0 : 1;
    $other = 'r' . mt_rand(0, 300);
    $found = apcu_fetch($other, $is_there);
    $wrong += $is_there && $found !== str_repeat($other, intdiv(strlen($found), strlen($other))) ? 1 : 0;
}
var_dump($wrong);
$told = apcu_sma_info();
$free = array_sum(array_column($told['block_lists'][0], 'size'));
$taken = array_sum(array_column(apcu_cache_info()['cache_list'], 'mem_size'));
var_dump($free == $told['avail_mem'], $taken == apcu_cache_info(true)['mem_size'], $taken + $free <= $told['seg_size']);
apcu_clear_cache();
var_dump(apcu_cache_info(true)['num_entries'], count(apcu_sma_info()['block_lists'][0]));
?>
--EXPECT--
bool(false)
bool(true)
bool(false)
bool(true)
bool(true)
bool(true)
float(1)
int(0)
bool(true)
bool(true)
bool(true)
int(0)
int(1)
