--TEST--
A child forked inside a callback of apcu_entry neither holds nor gives back its parent's lock
--INI--
apc.enabled=1
apc.enable_cli=1
--SKIPIF--
<?php
if (!function_exists('pcntl_fork') || !function_exists('posix_kill')) die('skip pcntl and posix are needed');
require __DIR__ . '/common.inc';
if (!is_ours()) die('skip APCu has no lock of its own for callbacks');
?>
--FILE--
<?php
require __DIR__ . '/common.inc';

$made = apcu_entry('a', function () {
    $child = pcntl_fork();
    if ($child === 0) {
        // It calls the cache, and ends, as its parent's callback goes on.
        apcu_store('by the child', 1);
        exit(0);
    }
    echo end_of($child), "\n";
    // Still the parent's: another process waits.
    $waits = pcntl_fork();
    if ($waits === 0) {
        // A process of its own begins with no callback of its parent's on it.
        exit(0);
    }
    echo end_of($waits), "\n";
    return 'made';
});
var_dump($made, apcu_fetch('by the child'), is_free());

// A child that outlives its parent's callback.
$child = null;
apcu_entry('b', function () use (&$child) {
    $child = pcntl_fork();
    if ($child === 0) {
        usleep(300000);
        exit(0);
    }
    return 1;
});
var_dump(is_free());
echo end_of($child), "\n";
var_dump(is_free());
?>
--EXPECT--
ended 0
ended 0
string(4) "made"
int(1)
bool(true)
bool(true)
ended 0
bool(true)
