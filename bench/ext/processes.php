<?php // SPDX-License-Identifier: MIT

// Calls of many processes on one cache, each kind of work for some time: php processes.php PROCESSES MILLISECONDS
// names|times prints the names of the works, one a line; or in one line, for each work, nanoseconds of the clock for
// which there was one call, all processes taken together, and then the longest call in nanoseconds, of a second run
// in which each call is timed. A work that counts is judged: no call may be lost.

declare(strict_types=1);

[, $processes, $milliseconds, $what] = $argv;
[$processes, $milliseconds] = [(int) $processes, (int) $milliseconds];

function keys_of(string $family, int $count): array
{
    return array_map(fn (int $i): string => "$family:$i", range(0, $count - 1));
}

/** The result of a fetch; it ends the process if there is none. */
function found(mixed $value): void
{
    if ($value === false) {
        fwrite(STDERR, "a row is gone\n");
        exit(1);
    }
}

[$small, $page, $large] = [keys_of('small', 1000), keys_of('page', 100), keys_of('large', 4)];
[$text, $long, $longest] = [str_repeat('x', 100), str_repeat('y', 10000), str_repeat('z', 1000000)];

// Each work makes this many calls, from the place of its walk on.
$works = [
    'nothing: `apcu_enabled`, which takes no lock' => [100, function (int $n) { while ($n-- > 0) { apcu_enabled(); } }],
    'fetch, 100 bytes' => [100, function (int $n, int $at) use ($small) { while ($n-- > 0) { found(apcu_fetch($small[$at++ * 7 % 1000])); } }],
    'fetch, 10 KB' => [20, function (int $n, int $at) use ($page) { while ($n-- > 0) { found(apcu_fetch($page[$at++ * 7 % 100])); } }],
    'fetch, 1 MB' => [1, function (int $n, int $at) use ($large) { while ($n-- > 0) { found(apcu_fetch($large[$at++ % 4])); } }],
    'count, one counter' => [100, function (int $n) { while ($n-- > 0) { apcu_inc('n'); } }],
    'nine fetches and a store, 100 bytes' => [100, function (int $n, int $at) use ($small, $text) {
        while ($n-- > 0) {
            $key = $small[$at * 7 % 1000];
            if ($at++ % 10 === 0) { apcu_store($key, $text); } else { found(apcu_fetch($key)); }
        }
    }],
    'nine fetches and a store, 10 KB' => [20, function (int $n, int $at) use ($page, $long) {
        while ($n-- > 0) {
            $key = $page[$at * 7 % 100];
            if ($at++ % 10 === 0) { apcu_store($key, $long); } else { found(apcu_fetch($key)); }
        }
    }],
];
if ($what === 'names') {
    echo implode("\n", array_keys($works)), "\n";
    exit(0);
}

/** Makes calls until a moment; gives their count and the nanoseconds that they took. */
function many(callable $work, int $batch, int $at, int $begun, int $end): array
{
    $count = 0;
    do {
        $work($batch, $at + $count);
        $count += $batch;
        $now = hrtime(true);
    } while ($now < $end);
    return [$count, $now - $begun, 0];
}

/** The same, each call timed: also the longest. */
function each_timed(callable $work, int $batch, int $at, int $begun, int $end): array
{
    [$count, $longest] = [0, 0];
    do {
        $before = hrtime(true);
        $work(1, $at + $count++);
        $now = hrtime(true);
        $longest = max($longest, $now - $before);
    } while ($now < $end);
    return [$count, $now - $begun, $longest];
}

/** Ends all if one is stuck or failed. */
function fail(array $children, string $why): never
{
    foreach ($children as [$id]) {
        posix_kill($id, SIGKILL);
    }
    fwrite(STDERR, "$why\n");
    exit(1);
}

/** Has processes work from one moment on: all calls of theirs, nanoseconds between two of them, and the longest. */
function together(callable $way, callable $work, int $batch): array
{
    global $processes, $milliseconds;
    $children = [];
    for ($i = 0; $i < $processes; $i++) {
        [$own, $its] = stream_socket_pair(STREAM_PF_UNIX, STREAM_SOCK_STREAM, STREAM_IPPROTO_IP);
        $id = pcntl_fork();
        if ($id === 0) {
            fwrite($its, "ready\n");
            $begun = (int) fgets($its);
            while (hrtime(true) < $begun) {
            }
            fwrite($its, implode(' ', $way($work, $batch, $i * 37, $begun, $begun + $milliseconds * 1_000_000)) . "\n");
            exit(0);
        }
        if ($id < 0) {
            fail($children, 'no fork');
        }
        fclose($its);
        stream_set_timeout($own, 60 + intdiv($milliseconds, 1000));
        $children[] = [$id, $own];
    }
    foreach ($children as [, $stream]) {
        fgets($stream) !== false || fail($children, 'a process did not begin');
    }
    $begin = hrtime(true) + 10_000_000;
    foreach ($children as [, $stream]) {
        fwrite($stream, "$begin\n");
    }
    [$calls, $rate, $longest] = [0, 0, 0];
    foreach ($children as [$id, $stream]) {
        $line = fgets($stream);
        $line !== false || fail($children, 'a process failed, or did not end');
        [$count, $spent, $its_longest] = array_map('intval', explode(' ', $line));
        $calls += $count;
        $rate += $count / max(1, $spent);
        $longest = max($longest, $its_longest);
    }
    foreach ($children as [$id]) {
        pcntl_waitpid($id, $status);
    }
    return [$calls, 1 / $rate, $longest];
}

foreach ([[$small, $text], [$page, $long], [$large, $longest]] as [$keys, $value]) {
    foreach ($keys as $key) {
        apcu_store($key, $value) || fail([], 'the cache is too small');
    }
}
$told = [];
foreach ($works as $name => [$batch, $work]) {
    apcu_store('n', 0);
    [$calls, $between] = together('many', $work, $batch);
    [$more, , $longest] = together('each_timed', $work, $batch);
    if (str_starts_with($name, 'count') && apcu_fetch('n') !== $calls + $more) {
        fail([], 'calls were lost: ' . apcu_fetch('n') . ' of ' . ($calls + $more));
    }
    array_push($told, sprintf('%.1f', $between), $longest);
}
echo implode(' ', $told), "\n";
