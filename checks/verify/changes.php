<?php // SPDX-License-Identifier: MIT

// Ways to change an output so that none can print it.

declare(strict_types=1);

namespace ApcuVerify;

use function ApcuRecord\{line_end, members_of, word_of};

const KINDS = [
    'less' => 'a worker less in a mask',
    'swapped' => 'two lines of the journal swapped',
    'more' => 'a worker more in a mask',
    'reply' => 'another reply',
    'doubled' => 'a line doubled',
    'lost' => 'a line lost',
    'joined' => 'a line feed lost',
    'behind' => 'bytes behind the end',
];

/** The verdict if the line `journal` is none any more. There may be another one in a string, and marks after it. */
const NO_JOURNAL = 'no: (?:journal|event [0-9]+)';

/** An output, line by line, with the scripts that it is of. */
final class Output
{
    /** @var list<string> lines of workers and replies */
    public array $replies = [];
    /** @var list<list<int>> each line's worker, and those of its mask */
    public array $marks = [];
    /** @var list<?string> the call whose event each line of the journal is, the empty one for a worker's end; null where
     *     it is not known, since a walk takes as many steps as it takes */
    public array $calls = [];
    /** @var list<?string> what that call printed */
    public array $printed = [];
    /** Whether it is known of each worker how many events it has. */
    public bool $is_counted = true;

    public function __construct(string $script, string $output)
    {
        $lines = self::lines($output);
        $end = array_search("journal\n", array_reverse($lines), true);
        $marks = $end === 0 ? [] : array_slice($lines, -$end);
        $this->replies = array_slice($lines, 0, count($lines) - count($marks) - 1);
        $this->marks = array_map(static fn (string $line): array => array_map(intval(...), explode(' ', $line)), $marks);
        $this->name_calls(self::lines($script));
    }

    public function has_masks(): bool
    {
        return max([1, ...array_map(count(...), $this->marks)]) > 1;
    }

    /** This output with other replies or another journal. */
    public function text(?array $replies = null, ?array $marks = null): string
    {
        $text = implode($replies ?? $this->replies) . "journal\n";
        foreach ($marks ?? $this->marks as $mark) {
            $text .= implode(' ', $mark) . "\n";
        }
        return $text;
    }

    private function name_calls(array $script): void
    {
        $events = [];
        $worker = -1;
        $reply = 0;
        foreach ($script as $line) {
            $word = word_of($line);
            if ($word === 'worker') {
                $events[++$worker] = [];
                $reply++;
            } elseif ($word !== 'time' && $word !== 'request') {
                $count = events_of($word, $line);
                $own = $count === null ? [null] : array_fill(0, $count, [$line, $this->replies[$reply]]);
                array_push($events[$worker], ...$own);
                $this->is_counted = $this->is_counted && $count !== null;
                $reply++;
            }
        }
        $events = array_map(self::known(...), $events);
        $made = array_fill(0, count($events) + 1, 0);
        foreach ($this->marks as [$worker]) {
            [$this->calls[], $this->printed[]] = $events[$worker][$made[$worker]++] ?? [null, null];
        }
    }

    /** The events of a worker as far as they are known: up to its first walk, or with its end if it has none. */
    private static function known(array $own): array
    {
        $walk = array_search(null, $own, true);
        return $walk === false ? [...$own, ['', '']] : array_slice($own, 0, $walk);
    }

    private static function lines(string $text): array
    {
        $lines = [];
        for ($at = 0; ($end = line_end($text, $at)) !== null; $at = $end) {
            $lines[] = substr($text, $at, $end - $at);
        }
        return $lines;
    }
}

/** How many events a call has, or null for a walk over the rows. */
function events_of(string $word, string $line): ?int
{
    $first = strlen($word) + 1;
    if (str_starts_with($word, 'pool_')) {
        $key = (int) line_end_of_string($line, $first) + 1;
        return $word === 'pool_clear' ? null : members_of($line, $key) ?? 1;
    }
    return match ($word) {
        'apcu_enabled' => 0,
        'APCUIterator' => str_contains($line, '"deleted"') ? 1 : null,
        'APCUIterator_delete' => null,
        default => members_of($line, $first) ?? 1,
    };
}

/** The place after a string's text. */
function line_end_of_string(string $line, int $at): int
{
    preg_match('/\Gs:([0-9]+):"/', $line, $found, 0, $at);
    return $at + strlen($found[0]) + (int) $found[1] + 2;
}

/**
 * Some changes of an output: by kind the changed one, and the expected verdict as a pattern.
 *
 * @return array<string, array{string, string}>
 */
function changes_of(Output $of): array
{
    $all = array_keys(KINDS);
    $rare = array_splice($all, 0, 2);
    shuffle($all);
    $changes = [];
    foreach ([...$rare, ...$all] as $kind) {
        $change = count($changes) < CHANGES ? __NAMESPACE__ . "\\$kind" : null;
        $made = $change === null ? null : $change($of);
        if ($made !== null) {
            $changes[$kind] = $made;
        }
    }
    return $changes;
}

/** Another reply, or a line `worker` more or less: the verdict is the first byte that differs, since the journal is unchanged. */
function of_replies(Output $of, array $replies): array
{
    [$old, $new] = [$of->text(), $of->text($replies)];
    return [$new, 'no: byte ' . strspn($old ^ $new, "\0")];
}

function reply(Output $of): ?array
{
    $calls = array_keys(array_filter($of->replies, static fn (string $line): bool => !str_starts_with($line, 'worker ')));
    if ($calls === []) {
        return null;
    }
    $at = $calls[array_rand($calls)];
    $others = ["b:1;\n", "b:0;\n", "i:7;b:1;\n", $of->replies[$calls[array_rand($calls)]]];
    $others = array_values(array_filter($others, static fn (string $other): bool => $other !== $of->replies[$at]));
    return of_replies($of, array_replace($of->replies, [$at => $others[array_rand($others)]]));
}

function doubled(Output $of): ?array
{
    if (is_journal_chosen($of)) {
        $at = array_rand($of->marks);
        return [$of->text(null, spliced($of->marks, $at, 0, [$of->marks[$at]])), 'no: event [0-9]+'];
    }
    if ($of->replies === []) {
        return null;
    }
    $at = array_rand($of->replies);
    return of_replies($of, spliced($of->replies, $at, 0, [$of->replies[$at]]));
}

function lost(Output $of): ?array
{
    if (is_journal_chosen($of)) {
        return [$of->text(null, spliced($of->marks, array_rand($of->marks), 1, [])), 'no: event [0-9]+'];
    }
    return $of->replies === [] ? null : of_replies($of, spliced($of->replies, array_rand($of->replies), 1, []));
}

/** A line feed lost: of a reply, of the line `journal`, of a line in the journal or of the last one. */
function joined(Output $of): ?array
{
    if ($of->replies === []) {
        return null;
    }
    $text = $of->text();
    $journal = strlen(implode($of->replies));
    if (is_journal_chosen($of)) {
        $end = $journal + strlen("journal\n") - 1;
        $ends = array_keys(array_filter(str_split(substr($text, $end)), static fn (string $byte): bool => $byte === "\n"));
        $at = $end + $ends[array_rand($ends)];
        return [substr_replace($text, '', $at, 1), $at === $end ? NO_JOURNAL : 'no: event [0-9]+'];
    }
    $line = array_rand($of->replies);
    if ($line === count($of->replies) - 1) {
        return [substr_replace($text, '', $journal - 1, 1), NO_JOURNAL];
    }
    return of_replies($of, array_replace($of->replies, [$line => substr($of->replies[$line], 0, -1)]));
}

/** After the end no worker has another event, and what is no mark is none there. */
function behind(Output $of): ?array
{
    if ($of->marks === []) {
        return null;
    }
    $bytes = ["\n", ' ', "\0", "0\n", implode(' ', end($of->marks)) . "\n", "journal\n"][mt_rand(0, 5)];
    return [$of->text() . $bytes, 'no: event ' . ($bytes === "journal\n" ? 0 : count($of->marks))];
}

/**
 * Two swapped lines that count on one counter, between which neither worker has another one. Each reply shows the
 * counter's value before it, so neither line can have been at the other one's place.
 */
function swapped(Output $of): ?array
{
    $pairs = $last = [];
    foreach ($of->marks as $at => [$worker]) {
        $now = counted_from($of, $at);
        foreach ($now === null ? [] : $last as $other => $from) {
            $is_pair = $other !== $worker && ($last[$worker] ?? -1) < $from;
            $then = $is_pair ? counted_from($of, $from) : null;
            if ($then !== null && $then !== $now) {
                $pairs[] = [$from, $at];
            }
        }
        $last[$worker] = $at;
    }
    if ($pairs === []) {
        return null;
    }
    [$from, $at] = $pairs[array_rand($pairs)];
    $marks = array_replace($of->marks, [$from => $of->marks[$at], $at => $of->marks[$from]]);
    return [$of->text(null, $marks), 'no: (?:event|byte) [0-9]+'];
}

/** The value of the counter `n` before this event, or null if it is no such event or was not counted. */
function counted_from(Output $of, int $at): ?int
{
    return preg_match('/^apcu_inc s:1:"n"; i:([0-9]+);\n$/D', (string) $of->calls[$at], $step) === 1
        && preg_match('/^i:([0-9]+);b:1;\n$/D', (string) $of->printed[$at], $number) === 1
        ? (int) $number[1] - (int) $step[1]
        : null;
}

/** A worker more than can be: the one whose event it is, one that there is not, or one whose last event was no fetch. */
function more(Output $of): ?array
{
    if ($of->marks === []) {
        return null;
    }
    $at = array_rand($of->marks);
    $last = [];
    for ($i = 0; $i < $at; $i++) {
        $last[$of->marks[$i][0]] = $of->calls[$i];
    }
    $cannot = [];
    for ($worker = 0; $worker < 64; $worker++) {
        $call = array_key_exists($worker, $last) ? $last[$worker] : '';
        if ($worker === $of->marks[$at][0] || ($call !== null && !str_contains(word_of($call), 'fetch')
            && !str_contains(word_of($call), 'get'))) {
            $cannot[] = $worker;
        }
    }
    $mask = [...array_slice($of->marks[$at], 1), $cannot[array_rand($cannot)]];
    sort($mask);
    return [$of->text(null, array_replace($of->marks, [$at => [$of->marks[$at][0], ...$mask]])), "no: event $at"];
}

/**
 * A worker less, if the one of a mask is the reason for which a dropped row waits among the removed ones, and the
 * next call that looks at these finds it there. Up to then no call comes that takes removed rows away.
 */
function less(Output $of): ?array
{
    $places = [];
    foreach ($of->marks as $at => $mark) {
        if (count($mark) === 2 && drops((string) $of->calls[$at], (string) $of->printed[$at]) && is_seen($of, $at + 1)) {
            $places[] = $at;
        }
    }
    if ($places === []) {
        return null;
    }
    $at = $places[array_rand($places)];
    $marks = array_replace($of->marks, [$at => [$of->marks[$at][0]]]);
    return [$of->text(null, $marks), 'no: (?:event|byte) [0-9]+'];
}

/** Whether a call dropped one row and looked at no other that was held. */
function drops(string $call, string $printed): bool
{
    return preg_match('/^apcu_(?:delete|store) s:/', $call) === 1 && $printed === "b:1;\n";
}

/** Whether from an event on the next one that may tell of removed rows, or change which there are, tells of some. */
function is_seen(Output $of, int $at): bool
{
    for (; $at < count($of->marks); $at++) {
        $call = $of->calls[$at];
        if ($call === null) {
            return false;
        }
        if (str_contains($call, '"deleted"')) {
            return !str_starts_with((string) $of->printed[$at], 'a:0:')
                && !str_starts_with((string) $of->printed[$at], 'a:3:{s:5:"count";i:0;');
        }
        if (preg_match('/^apcu_(?:fetch|exists|key_info|sma_info|cas|enabled)\b/', $call) !== 1 && $call !== '') {
            return false;
        }
    }
    return false;
}

/** Whether this time the journal is changed; if a walk has no known number of steps it is left alone. */
function is_journal_chosen(Output $of): bool
{
    return $of->is_counted && $of->marks !== [] && mt_rand(0, 1) === 1;
}

/** A list with some of it replaced. */
function spliced(array $list, int $at, int $count, array $by): array
{
    array_splice($list, $at, $count, $by);
    return $list;
}
