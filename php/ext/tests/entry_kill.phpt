--TEST--
apcu_entry: a process killed in its callback holds nobody up
--INI--
apc.enabled=1
apc.enable_cli=1
--SKIPIF--
<?php
if (!function_exists('pcntl_fork') || !function_exists('posix_kill')) die('skip pcntl and posix are needed');
require __DIR__ . '/common.inc';
if (!is_ours()) die('skip APCu holds its lock while the callback runs');
?>
--FILE--
<?php
require __DIR__ . '/common.inc';

echo in_child(fn () => apcu_entry('a', fn () => posix_kill(getmypid(), SIGKILL))), "\n";
var_dump(is_free());
apcu_store('b', 'here');

// While a callback runs, others fetch and store; another callback waits for it.
$slow = pcntl_fork();
if ($slow === 0) {
    apcu_entry('c', function () {
        apcu_store('begun', 1);
        for ($i = 0; $i < SECONDS * 500 && !apcu_exists('go on'); $i++) {
            usleep(2000);
        }
        return 'slow';
    });
    exit(0);
}
while (!apcu_exists('begun')) {
    usleep(1000);
}
echo in_child(fn () => exit(apcu_fetch('b') === 'here' && apcu_store('d', 1) ? 0 : 1)), "\n";
$waits = pcntl_fork();
if ($waits === 0) {
    exit(apcu_entry('c', fn () => 'quick') === 'slow' ? 0 : 1);
}
usleep(50000);
var_dump(pcntl_waitpid($waits, $status, WNOHANG));
apcu_store('go on', 1);
echo end_of($slow), ' ', end_of($waits), "\n";
var_dump(apcu_fetch('c'));

// One that is killed while another one waits.
$slow = pcntl_fork();
if ($slow === 0) {
    apcu_entry('e', function () {
        apcu_store('begun again', 1);
        sleep(SECONDS);
    });
    exit(0);
}
while (!apcu_exists('begun again')) {
    usleep(1000);
}
$waits = pcntl_fork();
if ($waits === 0) {
    exit(apcu_entry('e', fn () => 'made') === 'made' ? 0 : 1);
}
usleep(20000);
posix_kill($slow, SIGKILL);
echo end_of($slow), ' ', end_of($waits), "\n";
var_dump(apcu_fetch('e'));
?>
--EXPECT--
signal 9
bool(true)
ended 0
int(0)
ended 0 ended 0
string(4) "slow"
signal 9 ended 0
string(4) "made"
