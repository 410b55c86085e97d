<?php // SPDX-License-Identifier: MIT

// Plays an input, and counts in its replies.

declare(strict_types=1);

namespace ApcuRecord;

const COLUMNS = [
    'rate' => 'hit rate', 'inserts' => 'inserts', 'refused' => 'refused', 'expunges' => 'expunges',
    'entries' => 'entries', 'used' => 'in use', 'free' => 'largest free run',
];
/** It changes nothing and counts nothing. */
const QUESTION = "apcu_cache_info b:1;\n";

/** The input that join.php --one makes of a folder; its messages are passed on. */
function joined(string $folder): string
{
    $input = @tempnam(sys_get_temp_dir(), 'apcu');
    $input !== false || give_up(sys_get_temp_dir() . ': cannot create a temporary file: ' . reason());
    register_shutdown_function(static fn () => unlink($input));
    $words = [PHP_BINARY, dirname(__DIR__) . '/join.php', '--one', $folder];
    $process = @proc_open($words, [1 => opened($input, 'wb')], $pipes);
    if ($process === false) {
        give_up('join.php cannot be started: ' . reason());
    }
    return proc_close($process) === 0 ? $input : exit(1);
}

/**
 * A copy of an input with questions in it: before each entry whether its row is there, which the entry's reply does not
 * tell; and at the end of each worker what the cache has come to.
 */
function with_questions(string $path): string
{
    $from = opened($path);
    $copy = @tempnam(sys_get_temp_dir(), 'apcu');
    $copy !== false || give_up(sys_get_temp_dir() . ': cannot create a temporary file: ' . reason());
    register_shutdown_function(static fn () => unlink($copy));
    $out = opened($copy, 'wb');
    $text = '';
    $is_first = true;
    foreach (lines_of($from) as $line) {
        $word = word_of($line);
        $key = $word === 'apcu_entry' ? key_of($line) : null;
        $text .= match (true) {
            $word === 'worker' && !$is_first => QUESTION,
            $key !== null => 'apcu_exists s:' . strlen($key) . ":\"$key\";\n",
            default => '',
        } . $line;
        $is_first = false;
        if (strlen($text) > 65_536) {
            put($out, $text, $copy);
            $text = '';
        }
    }
    put($out, $text . ($is_first ? '' : QUESTION), $copy);
    return $copy;
}

/**
 * What a program prints with the options of a setting, as a stream; or none, and its message.
 *
 * @param list<string> $first the program and its first words
 * @param list<string> $last its last words
 * @return array{?resource, string}
 */
function run_for(string $setting, array $first, array $last, string $input = '/dev/null'): array
{
    $output = @tmpfile() ?: give_up(sys_get_temp_dir() . ': cannot create a temporary file: ' . reason());
    $words = preg_split('/ +/', $setting, -1, PREG_SPLIT_NO_EMPTY);
    $process = @proc_open([...$first, ...$words, ...$last], [opened($input), $output, ['pipe', 'w']], $pipes);
    if ($process === false) {
        give_up("$first[0] cannot be started: " . reason());
    }
    $message = trim((string) stream_get_contents($pipes[2]));
    $status = proc_close($process);
    if ($status !== 0) {
        return [null, $message === '' ? "the program ended with status $status" : strtok($message, "\n")];
    }
    if ($message !== '') {
        tell($message);
    }
    rewind($output);
    return [$output, ''];
}

/**
 * What apcu_replay reports about a cache.
 *
 * @param resource $output
 * @return array{array<string, int|float>, Cells} the row of a setting, and its map
 */
function replayed($output): array
{
    $counts = [];
    $lines = lines_of($output);
    for (; $lines->valid() && $lines->current() !== "map\n"; $lines->next()) {
        [$name, $count] = explode(' ', $lines->current());
        $counts[$name] = (int) $count;
    }
    $lines->next();
    $row = ['rate' => $counts['hits'] / max(1, $counts['hits'] + $counts['misses'])];
    foreach (array_slice(array_keys(COLUMNS), 1) as $name) {
        $row[$name] = $counts[$name];
    }
    return [$row, map_of($lines)[0]];
}

/**
 * What the replies contain: hits and stores in all of the play, because the cache's own counters begin at 0 again at each
 * expunge; and the cache's shape and words at the end.
 *
 * @param resource $output
 * @return array{array<string, int|float>, Cells} the row of a setting, and its map
 */
function told(string $input, $output): array
{
    $sums = ['hits' => 0, 'misses' => 0, 'inserts' => 0, 'refused' => 0];
    $replies = lines_of($output);
    $ends = [];
    $exists = '';
    $worker = -1;
    foreach (lines_of(opened($input)) as $line) {
        $word = word_of($line);
        if ($word === 'time' || $word === 'request') {
            continue;
        }
        $reply = $replies->current();
        $replies->next();
        match ($word) {
            'worker' => $worker++,
            'apcu_cache_info' => $ends[$worker] = $reply,
            'apcu_exists' => $exists = $reply,
            default => count_call($sums, $word, $line, $reply, $exists),
        };
    }
    $cache = last_of($ends, $replies);
    $replies->next();
    [$cells, $largest] = map_of($replies);
    return [summed($sums, $cache, $largest), $cells];
}

function count_call(array &$sums, string $word, string $line, string $reply, string $exists): void
{
    $many = members_of($line, strlen($word) + 1);
    if ($word === 'apcu_fetch') {
        $hits = $many === null ? (int) str_ends_with($reply, "b:1;\n") : members_of($reply);
        $sums['hits'] += $hits;
        $sums['misses'] += ($many ?? 1) - $hits;
    } elseif ($word === 'apcu_entry') {
        $sums[$exists === "b:1;\n" ? 'hits' : 'misses']++;
        $sums['inserts'] += (int) ($exists !== "b:1;\n");
    } elseif ($word === 'apcu_store' || $word === 'apcu_add') {
        $stored = $many === null ? (int) ($reply === "b:1;\n") : $many - members_of($reply);
        $sums['inserts'] += $stored;
        // If there is a row, apcu_add stores nothing either.
        $sums['refused'] += $word === 'apcu_store' ? ($many ?? 1) - $stored : 0;
    }
}

/**
 * Of the last replies of each worker, the one that came last: after it there are no calls except information calls and
 * ends. The last event of a worker is its end, and the one before it is its question. The journal is read up to the map.
 */
function last_of(array $ends, \Generator $journal): array
{
    $places = [];
    for ($place = 0; $journal->valid() && $journal->current() !== "map\n"; $journal->next(), $place++) {
        $worker = (int) $journal->current();
        if ($place > 0) {
            $places[$worker] = [$places[$worker][1] ?? $place, $place];
        }
    }
    [$cache, $at] = ['a:0:{}', -1];
    foreach ($ends as $worker => $reply) {
        if ($places[$worker][0] > $at) {
            [$cache, $at] = [$reply, $places[$worker][0]];
        }
    }
    return unserialize($cache);
}

/** The row of a setting, in the order of the columns. A word has eight bytes. */
function summed(array $sums, array $cache, int $largest): array
{
    $asked = $sums['hits'] + $sums['misses'];
    return [
        'rate' => $asked === 0 ? 0.0 : $sums['hits'] / $asked,
        'inserts' => $sums['inserts'],
        'refused' => $sums['refused'],
        'expunges' => $cache['expunges'] ?? 0,
        'entries' => $cache['num_entries'] ?? 0,
        'used' => $cache['mem_size'] ?? 0,
        'free' => 8 * $largest,
    ];
}
