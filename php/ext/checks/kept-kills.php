<?php // SPDX-License-Identifier: MIT

// Kept values and other processes. Processes are killed inside calls that store, until a cache was made again that often:
// a value that this process was given stays the same, and so does what it is given later. Then the row of a value that a
// forked child has is removed and overwritten, while its parent has ended: the child's value stays the same.
// php kept-kills.php KILLS; its status is 1 if a value changed.

declare(strict_types=1);

require __DIR__ . '/kept-values.php';

$kills = (int) ($argv[1] ?? 300);
$value = ['name' => 'the right text', 'list' => [1, 2, 3], 'pad' => str_repeat('a', 3000)];
$is_same = true;
$held = kept('value', $value);

/** Kills a process that stores, at any moment. */
function kill_one(): void
{
    $id = pcntl_fork();
    if ($id === 0) {
        for (;;) {
            apcu_store('large ' . mt_rand(0, 3), array_fill(0, 3000, str_repeat('Z', 40)));
            apcu_store('small ' . mt_rand(0, 50), str_repeat('Z', 3000));
        }
    }
    usleep(mt_rand(500, 4000));
    posix_kill($id, SIGKILL);
    pcntl_waitpid($id, $status);
}

for ($i = 0; $i < $kills && $is_same; $i++) {
    kill_one();
    for ($j = 0; $j < 200; $j++) {
        apcu_store("other $j", ['q' => str_repeat('Z', 2900)]);
    }
    $is_same = $held === $value;
    $fetched = apcu_fetch('value');
    if ($fetched === false) {
        // A kill has emptied the cache, or there was no room.
        apcu_store('value', $value);
        $fetched = apcu_fetch('value');
    }
    $is_same = $is_same && $fetched === $value && apcu_fetch('value') === $value;
}
ob_start();
phpinfo(INFO_MODULES);
preg_match('/After A Kill\D+(\d+)/', (string) ob_get_clean(), $found);
printf("%d kills, cache made again %s times: %s\n", $i, $found[1] ?? 'some', $is_same ? 'the same value' : 'ANOTHER VALUE');

kept('value', $value);
[$own, $its] = stream_socket_pair(STREAM_PF_UNIX, STREAM_SOCK_STREAM, STREAM_IPPROTO_IP);
$parent = pcntl_fork();
if ($parent === 0) {
    $fetched = apcu_fetch('value');
    if (pcntl_fork() === 0) {
        // Until the row is gone.
        fgets($its);
        fwrite($its, $fetched === $value && $held === $value ? "the same value\n" : "ANOTHER VALUE\n");
    }
    exit(0);
}
pcntl_waitpid($parent, $status);
apcu_clear_cache();
for ($i = 0; $i < 2000; $i++) {
    apcu_store("other $i", ['q' => str_repeat('Z', 1900), 'i' => range(1, 40)]);
}
fwrite($own, "go\n");
$said = trim((string) fgets($own));
echo "a child that outlives its parent: $said\n";
exit($is_same && $said === 'the same value' ? 0 : 1);
