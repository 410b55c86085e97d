--TEST--
apcu_entry: exceptions, exit, kills and forks in its callback leave no lock behind
--INI--
apc.enabled=1
apc.enable_cli=1
--SKIPIF--
<?php
if (!function_exists('pcntl_fork') || !function_exists('posix_kill')) die('skip pcntl and posix are needed');
?>
--FILE--
<?php
require __DIR__ . '/common.inc';

try {
    apcu_entry('a', fn () => throw new LogicException('thrown'));
} catch (LogicException $thrown) {
    echo $thrown->getMessage(), "\n";
}
var_dump(apcu_exists('a'), is_free());

try {
    apcu_entry('a', fn () => apcu_entry('b', fn () => apcu_entry('c', fn () => throw new LogicException('from below'))));
} catch (LogicException $thrown) {
    echo $thrown->getMessage(), "\n";
}
var_dump(apcu_exists(['a', 'b', 'c']), is_free());

// What it gives is stored though the callback stored and deleted the key meanwhile.
var_dump(apcu_entry('d', function ($key) {
    apcu_store($key, 'inside');
    apcu_delete($key);
    return "made $key";
}), apcu_fetch('d'));

echo in_child(fn () => apcu_entry('e', fn () => exit(7))), "\n";
var_dump(apcu_exists('e'), is_free());

echo in_child(fn () => apcu_entry('f', fn () => apcu_entry('g', fn () => exit(8)))), "\n";
var_dump(is_free());

ini_set('display_errors', '0');
echo in_child(fn () => apcu_entry('h', fn () => trigger_error('fatal', E_USER_ERROR))), "\n";
var_dump(is_free());

echo in_child(function () {
    ini_set('memory_limit', '8M');
    apcu_entry('i', fn () => str_repeat('x', 50000000));
}), "\n";
var_dump(is_free());

// A generator, a static method and a function's name.
class Maker
{
    public static function make($key)
    {
        return "$key by a method";
    }
}
var_dump(apcu_entry('strtoupper', 'strtoupper'), apcu_entry('j', ['Maker', 'make']), apcu_entry('k', 'Maker::make'));
?>
--EXPECT--
thrown
bool(false)
bool(true)
from below
array(0) {
}
bool(true)
string(6) "made d"
string(6) "made d"
ended 7
bool(false)
bool(true)
ended 8
bool(true)
ended 255
bool(true)
ended 255
bool(true)
string(10) "STRTOUPPER"
string(13) "j by a method"
string(13) "k by a method"
