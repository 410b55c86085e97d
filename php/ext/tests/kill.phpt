--TEST--
Processes that are killed at any moment leave a cache that answers
--INI--
apc.enabled=1
apc.enable_cli=1
apc.shm_size=4M
error_log=/dev/null
--SKIPIF--
<?php
if (!function_exists('pcntl_fork') || !function_exists('posix_kill')) die('skip pcntl and posix are needed');
require __DIR__ . '/common.inc';
if (!is_ours()) die('skip after a kill APCu may wait for ever');
?>
--FILE--
<?php
require __DIR__ . '/common.inc';

$wrong = 0;
for ($i = 0; $i < 60; $i++) {
    $id = pcntl_fork();
    if ($id === 0) {
        for (;;) {
            $key = 'k' . mt_rand(0, 50);
            apcu_store($key, str_repeat($key, mt_rand(0, 3000)));
            apcu_delete('k' . mt_rand(0, 50));
            apcu_inc('n');
        }
    }
    usleep(mt_rand(1000, 8000));
    posix_kill($id, SIGKILL);
    pcntl_waitpid($id, $status);
    apcu_store('alive', $i);
    $wrong += apcu_fetch('alive') === $i ? 0 : 1;
    for ($j = 0; $j <= 50; $j++) {
        $value = apcu_fetch("k$j");
        $wrong += $value === false || $value === str_repeat("k$j", intdiv(strlen($value), strlen("k$j"))) ? 0 : 1;
    }
}
var_dump($wrong, is_free());
?>
--EXPECT--
int(0)
bool(true)
