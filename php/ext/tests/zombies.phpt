--TEST--
Rows that killed processes were copying leave room at once, though no process waits for them
--INI--
apc.enabled=1
apc.enable_cli=1
apc.shm_size=256M
memory_limit=-1
--SKIPIF--
<?php
if (!function_exists('pcntl_fork') || !function_exists('posix_kill')) die('skip pcntl and posix are needed');
require __DIR__ . '/common.inc';
if (!is_ours()) die('skip after a kill APCu may wait for ever');
?>
--FILE--
<?php
require __DIR__ . '/common.inc';

apcu_clear_cache();
$free = apcu_sma_info(true)['avail_mem'];
$text = str_repeat('x', 2 << 20);
$pinned = 0;
$zombies = [];
for ($round = 0; $pinned < 64 && $round < 40; $round++) {
    $ids = [];
    for ($i = 0; $i < 16; $i++) {
        apcu_store("row $i", $text);
        $id = pcntl_fork();
        while ($id === 0) {
            $copy = apcu_fetch("row $i");
            unset($copy);
        }
        $ids[] = $id;
    }
    usleep(30000);
    // Those that are stopped in a copy keep their row. One may be stopped with the lock: then all go on after a while.
    $waker = pcntl_fork();
    if ($waker === 0) {
        usleep(2000000);
        foreach ($ids as $id) {
            posix_kill($id, SIGCONT);
        }
        exit(0);
    }
    foreach ($ids as $id) {
        posix_kill($id, SIGSTOP);
    }
    usleep(10000);
    for ($i = 0; $i < 16; $i++) {
        apcu_delete("row $i");
    }
    $info = apcu_cache_info();
    foreach ($ids as $id) {
        posix_kill($id, SIGKILL);
        $zombies[] = $id;
    }
    posix_kill($waker, SIGKILL);
    if (end_of($waker) === 'signal 9') {
        $pinned += count($info['deleted_list']);
        if (count($info['deleted_list']) !== $info['seats_taken']) {
            echo count($info['deleted_list']), " rows, {$info['seats_taken']} seats\n";
        }
    }
    // A killed process may take a moment to die.
    for ($wait = 0; $wait < 5000 && apcu_cache_info()['seats_taken'] > 0; $wait++) {
        usleep(1000);
    }
    apcu_store('next', 1);
    if (apcu_cache_info()['deleted_list'] !== []) {
        echo count(apcu_cache_info()['deleted_list']), " rows are kept for zombies\n";
    }
}
var_dump($pinned >= 64, count(array_filter($zombies, fn (int $id): bool => posix_kill($id, 0))) === count($zombies));
apcu_clear_cache();
var_dump(apcu_sma_info(true)['avail_mem'] === $free);
array_map('end_of', $zombies);
?>
--EXPECT--
bool(true)
bool(true)
bool(true)
