--TEST--
exit and exceptions in hooks and destructors leave the lock free
--INI--
apc.enabled=1
apc.enable_cli=1
--SKIPIF--
<?php
if (!function_exists('pcntl_fork') || !function_exists('posix_kill')) die('skip pcntl and posix are needed');
?>
--FILE--
<?php
require __DIR__ . '/common.inc';

class ExitsAwake
{
    public $value = 1;
    public function __wakeup()
    {
        exit(3);
    }
}
class ExitsAsleep
{
    public function __serialize(): array
    {
        exit(4);
    }
}
class Ending
{
    public static $what;
    public $value;
    public function __destruct()
    {
        (self::$what)();
    }
}

function report(string $name, callable $what): void
{
    echo $name, ': ', in_child($what), ', ', is_free() ? 'free' : 'held', "\n";
}

apcu_store('awake', [1, new ExitsAwake()]);
report('exit in __wakeup', fn () => apcu_fetch('awake'));
report('exit in __wakeup during a walk', fn () => iterator_to_array(new APCUIterator('/^awake$/')));
report('exit in __serialize', fn () => apcu_store('asleep', new ExitsAsleep()));
report('exit in __serialize in a callback', fn () => apcu_entry('asleep', fn () => new ExitsAsleep()));

Ending::$what = fn () => apcu_store('ended', 1);
apcu_store('ending', ['x', new Ending()]);
apcu_fetch('ending');
var_dump(apcu_fetch('ended'));
Ending::$what = fn () => exit(5);
report('exit in a destructor', fn () => apcu_fetch('ending'));
Ending::$what = fn () => throw new RuntimeException('thrown by a destructor');
try {
    apcu_fetch('ending');
} catch (RuntimeException $thrown) {
    echo $thrown->getMessage(), "\n";
}
Ending::$what = fn () => apcu_clear_cache();
apcu_entry('more', function () {
    apcu_fetch('ending');
    return 1;
});
var_dump(apcu_exists(['more', 'ending']));
Ending::$what = fn () => null;
report('time is over', function () {
    ini_set('display_errors', '0');
    set_time_limit(1);
    for (;;) {
        apcu_store('time', str_repeat('x', 1000));
        apcu_fetch('time');
    }
});
report('SIGTERM', function () {
    $parent = getmypid();
    if (pcntl_fork() === 0) {
        usleep(50000);
        posix_kill($parent, SIGTERM);
        exit(0);
    }
    for (;;) {
        apcu_store('time', str_repeat('x', 1000));
    }
});
report('a handler that calls the cache', function () {
    pcntl_async_signals(true);
    $left = 20;
    pcntl_signal(SIGUSR1, function () use (&$left) {
        apcu_store('time', 'by a handler');
        $left--;
    });
    $parent = getmypid();
    $sends = pcntl_fork();
    if ($sends === 0) {
        while (posix_kill($parent, SIGUSR1)) {
            usleep(500);
        }
        exit(0);
    }
    while ($left > 0) {
        apcu_store('time', str_repeat('x', 1000));
        apcu_fetch('time');
    }
    posix_kill($sends, SIGKILL);
    end_of($sends);
    exit(6);
});
?>
--EXPECT--
exit in __wakeup: ended 3, free
exit in __wakeup during a walk: ended 3, free
exit in __serialize: ended 4, free
exit in __serialize in a callback: ended 4, free
int(1)
exit in a destructor: ended 5, free
thrown by a destructor
array(1) {
  ["more"]=>
  bool(true)
}
time is over: ended 255, free
SIGTERM: signal 15, free
a handler that calls the cache: ended 6, free
