--TEST--
apcu_entry: of many processes that want one key, one makes it
--INI--
apc.enabled=1
apc.enable_cli=1
--SKIPIF--
<?php
if (!function_exists('pcntl_fork') || !function_exists('posix_kill')) die('skip pcntl and posix are needed');
?>
--FILE--
<?php
require __DIR__ . '/common.inc';

$all = [];
for ($i = 0; $i < 8; $i++) {
    $id = pcntl_fork();
    if ($id === 0) {
        // All begin at once.
        while (!apcu_exists('go')) {
            usleep(500);
        }
        for ($n = 0; $n < 20; $n++) {
            $value = apcu_entry("key $n", function ($key) {
                usleep(1000);
                apcu_inc("made $key");
                return "value of $key";
            });
            if ($value !== "value of key $n") {
                exit(1);
            }
        }
        exit(0);
    }
    $all[] = $id;
}
apcu_store('go', 1);
foreach ($all as $id) {
    echo end_of($id), ' ';
}
echo "\n";
$made = [];
for ($n = 0; $n < 20; $n++) {
    $made[] = apcu_fetch("made key $n");
}
echo implode(' ', $made), "\n";
?>
--EXPECT--
ended 0 ended 0 ended 0 ended 0 ended 0 ended 0 ended 0 ended 0 
1 1 1 1 1 1 1 1 1 1 1 1 1 1 1 1 1 1 1 1
