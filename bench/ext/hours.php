<?php // SPDX-License-Identifier: MIT

// Load on a php-fpm whose workers are killed, one each second, and a judgement of each reply:
// php hours.php SOCKET SCRIPT MASTER MINUTES CLIENTS PAUSE
// The script is site/numbers.php. Each key belongs to one client, the only one that stores under it, a higher number each
// time, and waits for the reply; all clients fetch all keys. So a value is judged by its key and number: it is whole, it
// is no older than the one that the same client has seen under the key, and its owner finds the very one that it stored
// last. It finds none only if meanwhile the cache was recreated or memory was short.
// A line a minute, and at the end a line of all; the status is 1 if a reply was wrong, or none came in ten seconds.

declare(strict_types=1);

require __DIR__ . '/../../php/ext/checks/fcgi.php';
require __DIR__ . '/site/numbers.php';

[, $socket, $script, $master, $minutes, $clients, $pause] = $argv;
[$master, $minutes, $clients, $pause] = [(int) $master, (float) $minutes, (int) $clients, (int) $pause];
const KEYS = 40;

/** What a client does: requests until a moment, with a pause of this many microseconds, and each second a line of counts for the parent. */
function client(int $own, int $clients, string $socket, string $script, int $end, int $pause, mixed $tell): void
{
    mt_srand($own);
    $count = ['good' => 0, 'none' => 0, 'lost' => 0, 'late' => 0, 'wrong' => 0, 'longest' => 0];
    // The last number seen under each key, those stored by this client, those whose reply was lost, and how often the
    // cache was recreated and short of memory before each was stored.
    [$seen, $stored, $unsure, $drops] = [[], [], [], []];
    $number = 0;
    $told = hrtime(true);
    while (hrtime(true) < $end) {
        // A third are stores, half are about keys of its own.
        $place = mt_rand(0, 1) === 0 ? mt_rand(0, KEYS - 1) * $clients + $own : mt_rand(0, KEYS * $clients - 1);
        $key = "k$place";
        $is_own = $place % $clients === $own;
        $is_store = $is_own && mt_rand(0, 2) > 0;
        $query = $is_store ? "key=$key&number=" . ++$number : "key=$key";
        usleep($pause);
        $before = hrtime(true);
        $answer = ask($socket, $script, $query);
        $count['longest'] = max($count['longest'], hrtime(true) - $before);
        $fault = null;
        if (!is_string($answer)) {
            $count[$answer === null ? 'lost' : 'late']++;
            if ($is_store) {
                // Its worker is dead: it stored, or it never will.
                $unsure[$key] = $number;
            }
        } elseif ($is_store) {
            if (preg_match('/^stored (\d+ \d+)$/D', $answer, $found)) {
                [$stored[$key], $seen[$key], $drops[$key]] = [$number, $number, $found[1]];
                unset($unsure[$key]);
            } else {
                $fault = 'another reply to a store';
            }
        } elseif (preg_match('/^none (\d+ \d+)$/D', $answer, $found)) {
            $count['none']++;
            if ($is_own && $found[1] === ($drops[$key] ?? null) && !isset($unsure[$key])) {
                $fault = 'a row is gone, and none were dropped';
            }
        } else {
            $at = number_in($key, $answer);
            if ($at === null) {
                $fault = 'no whole value of this key';
            } elseif ($at < ($seen[$key] ?? 0)) {
                $fault = "an older number than $seen[$key]";
            } elseif ($is_own && $at !== ($stored[$key] ?? null) && $at !== ($unsure[$key] ?? null)) {
                $fault = 'another number than its owner stored last';
            }
            $seen[$key] = max($at ?? 0, $seen[$key] ?? 0);
        }
        if ($fault !== null) {
            $count['wrong']++;
            fwrite(STDERR, "$key, $fault: " . substr((string) $answer, 0, 100) . "\n");
        } elseif (is_string($answer)) {
            $count['good']++;
        }
        if (hrtime(true) - $told > 1_000_000_000) {
            $told = hrtime(true);
            fwrite($tell, json_encode($count) . "\n");
            $count['longest'] = 0;
        }
        if ($count['late'] > 2) {
            break;
        }
    }
    fwrite($tell, json_encode($count) . "\n");
}

/** Numbers of the processes that a process has as children now. */
function workers_of(int $master): array
{
    return array_map('intval', array_filter(explode(' ', (string) @file_get_contents("/proc/$master/task/$master/children")), 'strlen'));
}

/** Bytes of private memory of the master and its workers, in MB. */
function memory_of(int $master): int
{
    $sum = 0;
    foreach ([$master, ...workers_of($master)] as $id) {
        preg_match_all('/^(?:Private_Clean|Private_Dirty): +(\d+)/m', (string) @file_get_contents("/proc/$id/smaps_rollup"), $found);
        $sum += array_sum($found[1]);
    }
    return intdiv((int) $sum, 1024);
}

$begun = hrtime(true);
$end = $begun + (int) ($minutes * 60e9);
$streams = [];
for ($i = 0; $i < $clients; $i++) {
    [$own, $its] = stream_socket_pair(STREAM_PF_UNIX, STREAM_SOCK_STREAM, STREAM_IPPROTO_IP);
    if (pcntl_fork() === 0) {
        client($i, $clients, $socket, $script, $end, $pause, $its);
        exit(0);
    }
    fclose($its);
    $streams[$i] = $own;
}

$counts = array_fill(0, $clients, ['good' => 0, 'none' => 0, 'lost' => 0, 'late' => 0, 'wrong' => 0, 'longest' => 0]);
[$kills, $longest, $at_most] = [0, 0, 0];
[$next_kill, $next_line] = [$begun + 1_000_000_000, $begun + 60_000_000_000];
/** One line of all that was counted. */
$line = function (string $when, int $longest) use (&$counts, &$kills, $master, $socket, $script): void {
    $sum = fn (string $what): int => array_sum(array_column($counts, $what));
    $recreated = ask($socket, $script, 'recreated');
    printf("%s: %d replies judged (%d of them that there is no row), %d wrong; %d requests lost by %d kills, %d late; the longest %d ms; "
        . "recreated %s times; %d MB\n", $when, $sum('good') + $sum('wrong'), $sum('none'), $sum('wrong'), $sum('lost'), $kills,
        $sum('late'), intdiv($longest, 1_000_000), is_string($recreated) ? $recreated : '?', memory_of($master));
};
while ($streams !== []) {
    [$read, $write, $except] = [$streams, null, null];
    stream_select($read, $write, $except, 0, 200_000);
    foreach ($read as $i => $stream) {
        $text = fgets($stream);
        if ($text === false) {
            unset($streams[$i]);
            continue;
        }
        $counts[$i] = json_decode($text, true);
        $longest = max($longest, $counts[$i]['longest']);
    }
    $now = hrtime(true);
    if ($now >= $next_kill && $now < $end) {
        $next_kill += 1_000_000_000;
        $workers = workers_of($master);
        if ($workers !== [] && posix_kill($workers[array_rand($workers)], SIGKILL)) {
            $kills++;
        }
    }
    if ($now >= $next_line && $now < $end) {
        $line(date('H:i:s') . ', minute ' . intdiv($next_line - $begun, 60_000_000_000), $longest);
        $next_line += 60_000_000_000;
        [$at_most, $longest] = [max($at_most, $longest), 0];
    }
    if ($now > $end + 60_000_000_000) {
        echo "a client did not end\n";
        break;
    }
}
$line(sprintf('all, %.1f minutes', (hrtime(true) - $begun) / 60e9), max($at_most, $longest));
$bad = array_sum(array_column($counts, 'wrong')) + array_sum(array_column($counts, 'late'));
$good = array_sum(array_column($counts, 'good'));
exit($bad > 0 || $good === 0 || $streams !== [] || workers_of($master) === [] ? 1 : 0);
