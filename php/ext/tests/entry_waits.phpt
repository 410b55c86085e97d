--TEST--
apcu_entry: a slow callback keeps only callers of like keys waiting, and each wait ends
--INI--
apc.enabled=1
apc.enable_cli=1
display_errors=1
html_errors=0
log_errors=0
--SKIPIF--
<?php
if (!function_exists('pcntl_fork') || !function_exists('posix_kill')) die('skip pcntl and posix are needed');
require __DIR__ . '/common.inc';
if (!is_ours()) die('skip APCu has one lock for all callbacks');
?>
--FILE--
<?php
require __DIR__ . '/common.inc';

/** A process that is in a callback of this key, until another one stores $end. */
function begin_slow(string $key, string $end, ?callable $inside = null): int
{
    apcu_delete($end);
    apcu_delete($begun = "begun $key");
    $id = pcntl_fork();
    if ($id === 0) {
        $value = apcu_entry($key, function () use ($begun, $end, $inside) {
            apcu_store($begun, 1);
            for ($i = 0; $i < SECONDS * 500 && !apcu_exists($end); $i++) {
                usleep(2000);
            }
            return $inside ? $inside() : 'slow';
        });
        exit(str_ends_with($value, $inside ? 'inner' : 'slow') ? 0 : 1);
    }
    while (!apcu_exists($begun)) {
        usleep(1000);
    }
    return $id;
}

function end_slow(int $id, string $end): void
{
    apcu_store($end, 1);
    echo end_of($id), "\n";
}

// Of 32 other keys, hardly any is of the same group.
$slow = begin_slow('slow', 'end slow');
$done = 0;
for ($i = 0; $i < 32; $i++) {
    $done += in_child(function () use ($i) {
        pcntl_alarm(2);
        apcu_entry("key $i", fn () => 1);
    }) === 'ended 0' ? 1 : 0;
}
var_dump($done >= 28);

// A handler of a signal runs while its process waits, and ends the wait by an exception.
$waits = pcntl_fork();
if ($waits === 0) {
    pcntl_async_signals(true);
    pcntl_signal(SIGUSR1, function () {
        echo "a handler ran\n";
    });
    pcntl_signal(SIGTERM, fn () => throw new Exception('a handler threw'));
    try {
        apcu_entry('slow', fn () => 'not called');
    } catch (Exception $thrown) {
        echo $thrown->getMessage(), "\n";
    }
    exit(0);
}
usleep(300000);
posix_kill($waits, SIGUSR1);
usleep(300000);
posix_kill($waits, SIGTERM);
echo end_of($waits, 30), "\n";

// So does max_execution_time.
echo in_child(function () {
    set_time_limit(1);
    apcu_entry('slow', fn () => 'not called');
}, 30), "\n";

// The lock is still the first one's.
$waits = pcntl_fork();
if ($waits === 0) {
    exit(apcu_entry('slow', fn () => 'not called') === 'slow' ? 0 : 1);
}
usleep(300000);
var_dump(pcntl_waitpid($waits, $status, WNOHANG));
end_slow($slow, 'end slow');
echo end_of($waits), "\n";

// Callbacks in one another, in crossed order: of each pair both go on.
foreach ([['a', 'b'], ['c', 'd'], ['e', 'f'], ['g', 'h']] as $n => [$one, $two]) {
    $first = begin_slow($one, "end $n", fn () => 'round ' . apcu_entry($two, fn () => 'inner'));
    $second = begin_slow($two, "end $n", fn () => 'round ' . apcu_entry($one, fn () => 'inner'));
    apcu_store("end $n", 1);
    echo end_of($first, 60), ' ', end_of($second, 60), "\n";
}

// Three in a circle.
$ids = [];
foreach (['r' => 's', 's' => 't', 't' => 'r'] as $one => $two) {
    $ids[] = begin_slow($one, 'end circle', fn () => 'round ' . apcu_entry($two, fn () => 'inner'));
}
apcu_store('end circle', 1);
echo implode(' ', array_map(fn (int $id): string => end_of($id, 60), $ids)), "\n";

// A child that is forked in a callback waits, for its own callbacks in that one too.
$start = microtime(true);
echo apcu_entry('parent', function () use ($start) {
    $child = pcntl_fork();
    if ($child === 0) {
        apcu_entry('parent', fn () => 'of the child');
        exit(microtime(true) - $start > 0.4 ? 0 : 1);
    }
    usleep(500000);
    apcu_store('child', $child);
    return 'of the parent';
}), "\n";
echo end_of(apcu_fetch('child')), "\n";

// A fiber that is suspended in a callback keeps the lock of its key's group, and no other.
$fiber = new Fiber(fn () => apcu_entry('fiber', function () {
    Fiber::suspend();
    return 'made';
}));
$fiber->start();
echo in_child(function () {
    set_time_limit(1);
    apcu_entry('fiber', fn () => 'not called');
}, 30), "\n";
var_dump(is_free());
$fiber->resume();
echo $fiber->getReturn(), ' ', in_child(fn () => exit(apcu_entry('fiber', fn () => 'not called') === 'made' ? 0 : 1)), "\n";
?>
--EXPECTF--
bool(true)
a handler ran
a handler threw
ended 0

Fatal error: Maximum execution time of 1 second exceeded in %s on line %d
ended 255
int(0)
ended 0
ended 0
ended 0 ended 0
ended 0 ended 0
ended 0 ended 0
ended 0 ended 0
ended 0 ended 0 ended 0
of the parent
ended 0

Fatal error: Maximum execution time of 1 second exceeded in %s on line %d
ended 255
bool(true)
made ended 0
