<?php // SPDX-License-Identifier: MIT

// The verdict of apcu_run on a record, which is proved from the text to the verdict.

declare(strict_types=1);

namespace ApcuRecord;

const RIGHT = 0;
const NOT_JUDGED = 1;
const RIGHT_IN_PART = 2;
const WRONG = 9;
/** A part of what the program takes. */
const LONG_BYTES = MOST_BYTES / 8;

/** Judges all stretches, and tells what came of it. */
function proved(string $program, string $replayer, Recorded $record): int
{
    if ($record->shape->size > MOST_SIZE) {
        give_up("the cache has {$record->shape->size} bytes, and apcu_run takes " . MOST_SIZE . ': judge without --proved');
    }
    $extent = new Extent();
    $events = $seconds = $end = 0;
    $is_whole = true;
    foreach (stretches(events_of($replayer, $record, $is_whole), $extent, LONG_BYTES) as $stretch) {
        if (!verified($program, $record->shape, $stretch)) {
            return shown_wrong($replayer, $record);
        }
        $events += $stretch->events;
        // Two stretches may share a second.
        $seconds += $stretch->last - max($stretch->first - 1, $end);
        $end = $stretch->last;
        if ($stretch->cut !== null) {
            tell("{$stretch->cut}: what follows is judged from the next apcu_clear_cache on");
        }
    }
    return told_right($record, $extent, $events, $seconds, $is_whole);
}

function told_right(Recorded $record, Extent $extent, int $events, int $seconds, bool $is_whole): int
{
    $processes = counted($extent->processes(), 'process', 'processes');
    $what = $record->has_values ? '' : '; values were left out, so this is of their lengths';
    if ($events === 0) {
        tell("{$record->path}: no event can be judged");
        return NOT_JUDGED;
    }
    if ($is_whole && $events === $extent->events) {
        echo counted($events, 'event'), " of $processes in ", counted($extent->seconds(), 'second'),
            ": each reply is right, by apcu_run$what\n";
        return RIGHT;
    }
    echo number_format($events), ' of ', counted($extent->events, 'event'), " of $processes, $seconds of ",
        counted($extent->seconds(), 'second'), ": each of these replies is right, by apcu_run$what\n";
    return RIGHT_IN_PART;
}

/** Shows the first wrong reply: apcu_replay finds it. */
function shown_wrong(string $replayer, Recorded $record): int
{
    tell('apcu_run says no');
    $status = passed_on([$replayer, $record->path]);
    return $status === WRONG ? WRONG : give_up('but apcu_replay finds no wrong reply: this is an internal error, please report it');
}

/** @param list<string> $words */
function passed_on(array $words): int
{
    $started = @proc_open($words, [], $pipes);
    return $started === false ? give_up("$words[0] cannot be started: " . reason()) : proc_close($started);
}

/** The program's word on a stretch. */
function verified(string $program, Shape $shape, Stretch $stretch): bool
{
    $scripts = $stretch->scripts();
    [$status, $printed, $message] = run_program(
        [$program, ...$shape->options(), '--verify', (string) strlen($scripts)],
        $scripts . $stretch->output(),
    );
    return match (true) {
        $status === 0 && $printed === "yes\n" => true,
        $status === 9 && str_starts_with($printed, 'no: ') => false,
        default => give_up($message === '' ? "the program ended with status $status" : $message),
    };
}

/**
 * What a program prints for an input, and its first message.
 *
 * @param list<string> $words
 * @return array{int, string, string}
 */
function run_program(array $words, string $input): array
{
    $ends = [];
    foreach (['input', 'output'] as $name) {
        $ends[$name] = @tmpfile() ?: give_up(sys_get_temp_dir() . ": cannot create a temporary file for the $name of a program: " . reason());
    }
    put($ends['input'], $input, sys_get_temp_dir());
    rewind($ends['input']);
    $process = @proc_open($words, [$ends['input'], $ends['output'], ['pipe', 'w']], $pipes);
    if ($process === false) {
        give_up("$words[0] cannot be started: " . reason());
    }
    $message = trim((string) stream_get_contents($pipes[2]));
    $status = proc_close($process);
    rewind($ends['output']);
    return [$status, (string) stream_get_contents($ends['output']), $message];
}
