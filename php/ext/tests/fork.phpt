--TEST--
Processes of one fork have one cache; a child gives back no lock of its parent
--INI--
apc.enabled=1
apc.enable_cli=1
--SKIPIF--
<?php
if (!function_exists('pcntl_fork') || !function_exists('posix_kill')) die('skip pcntl and posix are needed');
?>
--FILE--
<?php
require __DIR__ . '/common.inc';

apcu_store('parent', [1]);
echo in_child(fn () => exit(apcu_fetch('parent') === [1] && apcu_store('child', 2.5) ? 0 : 1)), "\n";
var_dump(apcu_fetch('child'));
echo in_child(fn () => apcu_clear_cache()), "\n";
var_dump(apcu_exists('parent'), apcu_cache_info(true)['num_entries']);

// Counters of eight processes.
$all = [];
for ($i = 0; $i < 8; $i++) {
    $id = pcntl_fork();
    if ($id === 0) {
        for ($j = 0; $j < 5000; $j++) {
            apcu_inc('n');
        }
        exit(0);
    }
    $all[] = $id;
}
foreach ($all as $id) {
    end_of($id);
}
var_dump(apcu_fetch('n'));

// A walk that a child goes on with, and its parent too.
apcu_clear_cache();
for ($i = 0; $i < 10; $i++) {
    apcu_store("row $i", $i);
}
$rows = new APCUIterator('/^row/', APC_ITER_VALUE, 1);
$sum = 0;
foreach ($rows as $key => $row) {
    $sum += $row['value'];
    if ($sum > 0 && !isset($child)) {
        $child = pcntl_fork();
    }
}
if ($child === 0) {
    exit($sum);
}
echo $sum, ' ', end_of($child), "\n";
?>
--EXPECT--
ended 0
float(2.5)
ended 0
bool(false)
int(0)
int(40000)
45 ended 45
