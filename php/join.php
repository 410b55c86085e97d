<?php // SPDX-License-Identifier: MIT

// php join.php [--one] FOLDER > INPUT
// One input of apcu_run from the scripts of several processes: a worker for each, in the order in which they started.
// With --one there is one worker, which makes the calls of all processes in the order of their seconds. So the time is
// the same for all, as it was for the site. Within one second only the order of each process is known. Instead of the
// folder its files can be named.

declare(strict_types=1);

namespace ApcuRecord;

require __DIR__ . '/lines.php';
require __DIR__ . '/events/files.php';
require __DIR__ . '/events/stretches.php';
require __DIR__ . '/report/site.php';

/** The size at which the recorder regards a file as full, after which nothing is written. */
const FULL_BYTES = 62_000_000;
const USUAL_SLOTS = 4096;

help($argv);
ini_set('memory_limit', '-1');
[$is_one, $files] = asked(array_slice($argv, 1));
if (array_filter($files, is_recorded(...)) !== []) {
    give_up('this is a record of the extension, whose events are in order already: give it to judge.php or report.php');
}
$scripts = in_order(scripts_of($files));
$taken = $is_one ? $scripts : array_slice($scripts, 0, MOST_WORKERS);
if ($taken === []) {
    give_up('none of these files is a script');
}
$last = last_second($taken);
if ($is_one) {
    write_merged($taken, $last);
} else {
    foreach ($taken as $path) {
        write_script($path, $last);
    }
}
tell(count($taken) . ' of ' . count($scripts) . ' scripts'
    . (count($taken) < count($scripts) ? ': an input has at most ' . MOST_WORKERS . ' workers' : ''));
tell_left($taken);

/** @return array{bool, list<string>} whether there is one worker, and the files */
function asked(array $words): array
{
    $files = array_values(array_diff($words, ['--one']));
    return $files === [] ? give_up('usage: php join.php [--one] FOLDER > INPUT') : [$files !== $words, $files];
}

/** What the recorder wrote: the files of folders, and others except those that accompany scripts. */
function scripts_of(array $paths): array
{
    $scripts = [];
    foreach ($paths as $path) {
        array_push($scripts, ...(is_dir($path) ? glob("$path/*.apcu") : [$path]));
    }
    return array_filter($scripts, static fn (string $path): bool => preg_match('/\.(left|replies|site)$/D', $path) !== 1);
}

/** The scripts by their first second. */
function in_order(array $paths): array
{
    $starts = [];
    foreach ($paths as $path) {
        $file = opened($path);
        if (fgets($file) !== "worker\n") {
            tell("$path is left out: it is no script");
            continue;
        }
        $starts[$path] = second_of((string) fgets($file));
        fseek($file, -1, SEEK_END);
        if (fgetc($file) !== "\n") {
            tell("$path is left out: it ends within a line");
            unset($starts[$path]);
        }
    }
    ksort($starts);
    asort($starts);
    return array_keys($starts);
}

/** Up to which second all calls of these scripts fit into an input; if some do not, that is printed. */
function last_second(array $paths): int
{
    $sizes = $counts = [];
    $full = PHP_INT_MAX;
    foreach ($paths as $path) {
        foreach (parts_of($path) as [$second, $text, $questions, $events]) {
            $sizes[$second] = ($sizes[$second] ?? 0) + strlen($text) + $questions;
            $counts[$second] = ($counts[$second] ?? 0) + $events;
        }
        // What comes after the last second of a full one was not recorded.
        $full = filesize($path) > FULL_BYTES ? min($full, $second ?? PHP_INT_MAX) : $full;
    }
    ksort($sizes);
    // Lines `worker`, and a report's questions at the end of each; and the ends themselves.
    [$bytes, $events] = [64 * count($paths), 2 * count($paths)];
    $last = $first = array_key_first($sizes) ?? 0;
    foreach ($sizes as $second => $size) {
        $bytes += $size;
        $events += $counts[$second];
        $why = match (true) {
            $bytes > MOST_BYTES => 'an input has at most ' . MOST_BYTES . ' bytes',
            $events > MOST_EVENTS => 'an input has at most ' . MOST_EVENTS . ' events',
            $second > $full => "a process's file is full then",
            default => null,
        };
        if ($why !== null) {
            $last = $second === $first ? $first - 1 : $last;
            tell('the first ' . ($last - $first + 1) . ' of ' . (array_key_last($sizes) - $first + 1) . " seconds: $why");
            return $last;
        }
        $last = $second;
    }
    return PHP_INT_MAX;
}

function write_script(string $path, int $last): void
{
    put(STDOUT, "worker\n");
    foreach (parts_of($path) as [$second, $text]) {
        if ($second <= $last) {
            put(STDOUT, $text);
        }
    }
}

/** All calls in the order of their seconds. In one second those of each process are spread evenly. */
function write_merged(array $paths, int $last): void
{
    $seconds = [];
    foreach ($paths as $number => $path) {
        foreach (parts_of($path) as [$second, $text]) {
            if ($second <= $last) {
                $seconds[$second][$number][] = $text;
            }
        }
    }
    ksort($seconds);
    put(STDOUT, "worker\n");
    foreach ($seconds as $scripts) {
        put(STDOUT, implode(spread($scripts)));
    }
}

/** The parts of some scripts in one list: the parts of each in their order, at even distances. */
function spread(array $scripts): array
{
    $places = $texts = [];
    foreach ($scripts as $parts) {
        foreach ($parts as $place => $text) {
            $places[] = ($place + 0.5) / count($parts);
            $texts[] = $text;
        }
    }
    asort($places);
    return array_map(static fn (int $at): string => $texts[$at], array_keys($places));
}

/**
 * The calls of a script by their second, each part with its own lines `request` and `time`, with how many bytes a report
 * asks for its entries, and with how many events it may have then.
 */
function parts_of(string $path): \Generator
{
    [$request, $second, $calls, $questions, $events] = [0, 0, '', 0, 0];
    foreach (lines_of(opened($path)) as $line) {
        $word = word_of($line);
        if ($word === 'time' || $word === 'request') {
            yield from part($request, $second, $calls, $questions, $events);
            $second = second_of($line);
            $request = $word === 'request' ? $second : $request;
            [$calls, $questions, $events] = ['', 0, 0];
        } elseif ($word !== 'worker') {
            $calls .= $line;
            $questions += $word === 'apcu_entry' ? strlen(key_of($line) ?? '') + 30 : 0;
            $events += most_events($word, $line);
        }
    }
    yield from part($request, $second, $calls, $questions, $events);
}

/** How many events a call may have. A walk counts as one for each slot. */
function most_events(string $word, string $line): int
{
    return match ($word) {
        'apcu_entry' => 2,
        'APCUIterator', 'APCUIterator_delete' => USUAL_SLOTS,
        default => members_of($line, strlen($word) + 1) ?? 1,
    };
}

function part(int $request, int $second, string $calls, int $questions, int $events): \Generator
{
    if ($calls !== '') {
        $front = "request i:$request;\n" . ($second === $request ? '' : "time i:$second;\n");
        yield [$second, $front . $calls, $questions, $events];
    }
}

/** What the recorder left out of these scripts, and how many values a string replaces, by kind. */
function tell_left(array $paths): void
{
    foreach (sums_left($paths) as $how => $sums) {
        foreach ($sums as $kind => $count) {
            tell(($how === 'left' ? 'left out' : 'a string stands for') . ": $count of kind $kind");
        }
    }
}
