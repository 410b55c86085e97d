--TEST--
A process killed in apcu_exists leaves all rows
--INI--
apc.enabled=1
apc.enable_cli=1
--SKIPIF--
<?php
if (!function_exists('pcntl_fork') || !function_exists('posix_kill')) die('skip pcntl and posix are needed');
require __DIR__ . '/common.inc';
if (!is_ours()) die('skip after a kill APCu may wait for ever');
?>
--FILE--
<?php
require __DIR__ . '/common.inc';

$keys = array_map(fn (int $i): string => "k$i", range(0, 99));
foreach ($keys as $key) {
    apcu_store($key, 1);
}
for ($kill = 0; $kill < 200; $kill++) {
    $id = pcntl_fork();
    while ($id === 0) {
        apcu_exists($keys);
    }
    usleep(mt_rand(1000, 3000));
    posix_kill($id, SIGKILL);
    end_of($id);
}
var_dump(count(apcu_exists($keys)), apcu_cache_info(true)['remakes']);
?>
--EXPECT--
int(100)
int(0)
