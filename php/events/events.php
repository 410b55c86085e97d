<?php // SPDX-License-Identifier: MIT

// The events of a record as text, which apcu_replay prints.

declare(strict_types=1);

namespace ApcuRecord;

/** What the cache was asked, and what it answered. */
final class Event
{
    public function __construct(
        public readonly int $part,
        public readonly int $number,
        public readonly int $moment,
        public readonly int $process,
        public readonly string $call,
        public readonly string $reply,
    ) {
    }

    /** Whether the cache is empty after it. */
    public function clears(): bool
    {
        return str_starts_with($this->call, 'apcu_clear_cache');
    }
}

/**
 * The events of a record up to its end; the program tells if it is damaged, and then $is_whole is false in the end.
 *
 * @return \Generator<int, Event>
 */
function events_of(string $program, Recorded $record, bool &$is_whole): \Generator
{
    $started = @proc_open([$program, '--print', $record->path], [1 => ['pipe', 'w']], $pipes);
    if ($started === false) {
        give_up("$program cannot be started: " . reason());
    }
    $part = $process = $moment = 0;
    $lines = lines_of($pipes[1]);
    for (; $lines->valid(); $lines->next()) {
        $line = $lines->current();
        $at = strpos($line, ' ');
        match (substr($line, 0, (int) $at)) {
            'part' => $part = (int) substr($line, 5),
            'process' => $process = (int) substr($line, 8),
            'time' => $moment = second_of($line),
            default => $call = substr($line, $at + 1),
        };
        if ($line[0] >= '0' && $line[0] <= '9') {
            $lines->next();
            $reply = (string) $lines->current();
            yield $record->has_values
                ? new Event($part, (int) $line, $moment, $process, $call, $reply)
                : new Event($part, (int) $line, $moment, $process, with_value($call), letters($reply));
        }
    }
    $is_whole = proc_close($started) === 0;
}

/** A string of N letters, if the record has only its length N. */
function letters(string $text): string
{
    return preg_match('/\Ax:([0-9]+);/', $text, $found) === 1
        ? "s:$found[1]:\"" . str_repeat('x', (int) $found[1]) . '";' . substr($text, strlen($found[0]))
        : $text;
}

/** The same of a call, whose key has its bytes in any case. */
function with_value(string $call): string
{
    if (preg_match('/\Aapcu_(?:store|add) s:([0-9]+):"/', $call, $found) !== 1) {
        return $call;
    }
    $at = strlen($found[0]) + (int) $found[1] + 3;
    return substr($call, 0, $at) . letters(substr($call, $at));
}
