--TEST--
apcu_cache_info has what an operator watches, behind APCu's own members
--INI--
apc.enabled=1
apc.enable_cli=1
apc.shm_size=8M
error_log=/dev/null
--SKIPIF--
<?php
if (!function_exists('pcntl_fork') || !function_exists('posix_kill')) die('skip pcntl and posix are needed');
require __DIR__ . '/common.inc';
if (!is_ours()) die('skip APCu has no such members');
?>
--FILE--
<?php
require __DIR__ . '/common.inc';

echo implode(' ', array_slice(array_keys(apcu_cache_info(true)), 10)), "\n";
echo implode(' ', array_slice(array_keys(apcu_cache_info()), 10)), "\n";
$info = apcu_cache_info(true);
var_dump($info['remakes'], $info['seats_taken'], is_float($info['longest_wait']), $info['longest_entry_wait']);

// Processes that are killed in a call.
for ($kills = 0; $kills < 2000 && apcu_cache_info(true)['remakes'] === 0; $kills++) {
    $id = pcntl_fork();
    for ($big = str_repeat('x', 1000000); $id === 0;) {
        apcu_store('big', $big);
    }
    usleep(2000);
    posix_kill($id, SIGKILL);
    end_of($id);
}
$remakes = apcu_cache_info(true)['remakes'];
ob_start();
phpinfo(INFO_MODULES);
var_dump($remakes > 0, str_contains(ob_get_clean(), "Cache Recreated After Crash => $remakes\n"));

// A process that is stopped with the lock keeps others waiting.
$id = pcntl_fork();
for (; $id === 0;) {
    apcu_store('big', $big);
}
for ($tries = 0; $tries < 200 && apcu_cache_info(true)['longest_wait'] < 0.05; $tries++) {
    usleep(3000);
    posix_kill($id, SIGSTOP);
    $waker = pcntl_fork();
    if ($waker === 0) {
        usleep(100000);
        posix_kill($id, SIGCONT);
        exit(0);
    }
    apcu_exists('big');
    end_of($waker);
}
posix_kill($id, SIGKILL);
end_of($id);
var_dump(apcu_cache_info(true)['longest_wait'] >= 0.05, apcu_cache_info(true)['longest_wait'] < SECONDS);

// A wait for a callback.
$id = pcntl_fork();
if ($id === 0) {
    apcu_entry('slow', function () {
        apcu_store('begun', 1);
        usleep(300000);
    });
    exit(0);
}
while (!apcu_exists('begun')) {
    usleep(1000);
}
apcu_entry('slow', fn () => 1);
end_of($id);
var_dump(apcu_cache_info(true)['longest_entry_wait'] > 0.1);
?>
--EXPECT--
remakes seats_taken longest_wait longest_entry_wait kept_entries kept_size kept_hits
cache_list deleted_list slot_distribution remakes seats_taken longest_wait longest_entry_wait kept_entries kept_size kept_hits
int(0)
int(0)
bool(true)
float(0)
bool(true)
bool(true)
bool(true)
bool(true)
bool(true)
