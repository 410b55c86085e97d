<?php // SPDX-License-Identifier: MIT

// Four processes call the cache, and KILLS times one of them is killed at any moment and another one replaces
// it. After each kill a process that is never killed has to get a reply within twenty seconds; no value may be
// another's or half written; at the end all have to end by themselves.
// php kills.php KILLS [reads]; its status is 0, 1 if a value was wrong and 2 if a process hung. With `reads`
// those that are killed only fetch and test whether keys exist: then no row may be missing at any time.

declare(strict_types=1);

require __DIR__ . '/work.php';

const PATIENCE = 20;
const ROWS = 200;

/** What a process has to do, over its end of a pair of streams. */
function start(callable $what, array &$others): array
{
    [$own, $its] = stream_socket_pair(STREAM_PF_UNIX, STREAM_SOCK_STREAM, STREAM_IPPROTO_IP);
    stream_set_timeout($its, 3600);
    $id = pcntl_fork();
    if ($id === 0) {
        fclose($own);
        foreach ($others as $other) {
            fclose($other['stream']);
        }
        mt_srand();
        exit($what($its));
    }
    fclose($its);
    return ['id' => $id, 'stream' => $own];
}

/** Works until the other end is closed. */
function worker($stream): int
{
    stream_set_blocking($stream, false);
    for ($made = 0; ; $made++) {
        $fault = work_once();
        if ($fault !== null) {
            fwrite(STDERR, "$fault\n");
            return 3;
        }
        if ($made % 50 === 0 && fread($stream, 1) === '' && feof($stream)) {
            return 0;
        }
    }
}

/** What the rows of readers hold: an integer, a text of 100 bytes, an array, a text of 10,000 bytes. */
function value_of_row(int $row): mixed
{
    return [$row, str_repeat("$row,", 25), ['row' => $row, 'list' => range(0, 20)], str_repeat(chr(97 + $row % 26), 10000)][$row % 4];
}

/** Fetches rows until the other end is closed. */
function reader($stream): int
{
    stream_set_blocking($stream, false);
    for ($made = 0; ; $made++) {
        $row = mt_rand(0, ROWS - 1);
        $is_right = $made % 3 === 0 ? apcu_exists("row $row") : apcu_fetch("row $row") === value_of_row($row);
        if (!$is_right) {
            fwrite(STDERR, "row $row is missing or another one\n");
            return 3;
        }
        if ($made % 50 === 0 && fread($stream, 1) === '' && feof($stream)) {
            return 0;
        }
    }
}

/** Answers each number, after it was stored and found. */
function asked($stream): int
{
    while (($number = fgets($stream)) !== false) {
        $stored = apcu_store('alive', $number);
        $found = apcu_fetch('alive', $is_there);
        // Another process may have cleared the cache, and a kill may have emptied it.
        $answer = $stored && ($found === $number || !$is_there) ? times_remade() ?? 'none' : 'wrong';
        fwrite($stream, "$answer\n");
    }
    return 0;
}

function stop_all(array $all): void
{
    foreach ($all as $one) {
        posix_kill($one['id'], SIGKILL);
        pcntl_waitpid($one['id'], $status);
    }
}

/** Whether a process has a processor, or waits for one. */
function is_running(int $id): bool
{
    return (bool) preg_match('/\) [RD] /', (string) @file_get_contents("/proc/$id/stat"));
}

/** Whether something comes within the time. If the machine has much else to do it is longer: as long as one runs. */
function is_answered($stream, array $all): bool
{
    for ($i = 0; $i < 10; $i++) {
        [$read, $write, $except] = [[$stream], null, null];
        if (stream_select($read, $write, $except, PATIENCE) === 1) {
            return true;
        }
        if (array_filter($all, fn (array $one): bool => is_running($one['id'])) === []) {
            return false;
        }
    }
    return false;
}

$wanted = (int) ($argv[1] ?? 300);
$work = ($argv[2] ?? '') === 'reads' ? 'reader' : 'worker';
for ($row = 0; $row < ROWS && $work === 'reader'; $row++) {
    apcu_store("row $row", value_of_row($row));
}
$all = [];
$all['asked'] = start('asked', $all);
for ($i = 0; $i < 4; $i++) {
    $all[$i] = start($work, $all);
}
[$wrong, $remakes, $begun] = [0, 'none', microtime(true)];
for ($kills = 1; $kills <= $wanted; $kills++) {
    usleep(mt_rand(500, 15000));
    $at = mt_rand(0, 3);
    posix_kill($all[$at]['id'], SIGKILL);
    pcntl_waitpid($all[$at]['id'], $status);
    if (!pcntl_wifsignaled($status) || pcntl_wtermsig($status) !== SIGKILL) {
        $wrong++;
        echo 'a process ended by itself: ', pcntl_wifsignaled($status) ? 'signal ' . pcntl_wtermsig($status) : pcntl_wexitstatus($status), "\n";
    }
    fclose($all[$at]['stream']);
    unset($all[$at]);
    fwrite($all['asked']['stream'], "$kills\n");
    if (!is_answered($all['asked']['stream'], $all)) {
        printf("after %d kills no process got a reply for %d seconds\n", $kills, PATIENCE);
        stop_all($all);
        exit(2);
    }
    $answer = trim((string) fgets($all['asked']['stream']));
    if ($answer === 'wrong' || $answer === '') {
        $wrong++;
        echo "after $kills kills: a wrong answer\n";
    } else {
        $remakes = $answer;
    }
    $all[$at] = start($work, $all);
}
$took = microtime(true) - $begun;
// All others end by themselves once their streams are closed.
$end = microtime(true) + PATIENCE;
foreach ($all as $one) {
    fclose($one['stream']);
}
foreach ($all as $name => $one) {
    while (($ended = pcntl_waitpid($one['id'], $status, WNOHANG)) === 0 && microtime(true) < $end) {
        usleep(10000);
    }
    if ($ended === 0) {
        printf("after %d kills a process did not end in %d seconds\n", $wanted, PATIENCE);
        stop_all([$one]);
        $wrong = -1;
    } elseif (!pcntl_wifexited($status) || pcntl_wexitstatus($status) !== 0) {
        $wrong++;
        echo "a process ended with another status\n";
    }
}
printf("%d kills, recreated %s times, %d faults, %.1f s\n", $wanted, $remakes, max($wrong, 0), $took);
if ($work === 'reader' && $remakes !== '0' && $remakes !== 'none') {
    echo "a process that was killed while it read emptied the cache\n";
    $wrong++;
}
exit($wrong < 0 ? 2 : min($wrong, 1));
