<?php // SPDX-License-Identifier: MIT

// php record-change.php KIND FOLDER [N]: changes a record at one event, and prints the number of the first one that is wrong
// then. KIND is reply (another number is given, by the first apcu_inc from the N. tenth of the events on), swap (two calls on
// one key change their places), left (a call is left out, and those behind it are numbered as if it had not been), or gone
// (the same, and its number is missing). Without N it is in the middle. With the KIND second no event is wrong: the lowest
// byte of each event's second is N.

declare(strict_types=1);

const HEAD = 'Pt/Pnumber/Pset/Panswer/Vevent/Vprocess/Vkey/Ckind/Cvalue/Creply/Czero';
const HEAD_BYTES = 48;
const STORE = 0;
const ADD = 1;
const FETCH = 2;
const INC = 5;
const INTEGER = 2;
const TEXT = 3;

ini_set('memory_limit', '-1');
[, $kind, $folder, $tenth] = [...$argv, '5'];
$path = glob("$folder/*.record")[0];
$record = file_get_contents($path);
preg_match('/\A[^\0]*?\n\n/', $record, $found);
[$head, $events] = [$found[0], events(substr($record, strlen($found[0])))];
if ($kind === 'second') {
    foreach ($events as [$is, $rest]) {
        $is['t'] = $is['t'] & ~255 | (int) $tenth;
        $head .= pack('PPPPVVVCCCC', ...array_values($is)) . $rest;
    }
    file_put_contents($path, $head);
    exit;
}
$at = intdiv(count($events) * (int) $tenth, 10);
[$at, $other] = match ($kind) {
    'reply' => [next_counted($events, $at), null],
    default => two_counted($events, $at, $kind !== 'swap'),
};
[$is, $rest] = $events[$at];
if ($kind === 'reply') {
    $is['answer']++;
    $events[$at] = [$is, $rest];
} elseif ($kind === 'swap') {
    [$events[$at], $events[$other]] = [$events[$other], $events[$at]];
} else {
    array_splice($events, $at, 1);
}
foreach ($events as $number => [$is, $rest]) {
    $is['event'] = $kind === 'gone' && $number >= $at ? $number + 1 : $number;
    $head .= pack('PPPPVVVCCCC', ...array_values($is)) . $rest;
}
file_put_contents($path, $head);
echo $kind === 'left' ? $other - 1 : $at, "\n";

/** @return list<array{array<string, int>, string}> the head and the bytes of each event */
function events(string $text): array
{
    $events = [];
    for ($at = 0; $at < strlen($text); $at += HEAD_BYTES + $bytes) {
        $is = unpack(HEAD, $text, $at);
        $bytes = $is['key'] + match (true) {
            ($is['kind'] === STORE || $is['kind'] === ADD) && $is['value'] === TEXT => $is['number'],
            $is['kind'] === FETCH && $is['reply'] === TEXT => $is['answer'],
            default => 0,
        };
        $events[] = [$is, substr($text, $at + HEAD_BYTES, $bytes)];
    }
    return $events;
}

function next_counted(array $events, int $at): int
{
    while (!is_counted($events[$at][0])) {
        $at++;
    }
    return $at;
}

/**
 * The places of a call that counts and of the next one on the same key, from another number, the nearest after a place.
 * Those that are next to one another have no call between that makes up for the first.
 */
function two_counted(array $events, int $at, bool $is_next): array
{
    for ($last = []; $at < count($events); $at++) {
        [$is, $key] = $events[$at];
        if (is_counted($is)) {
            $before = $last[$key] ?? null;
            if ($before !== null && counted_from($events[$before][0]) !== counted_from($is) && (!$is_next || $before === $at - 1)) {
                return [$before, $at];
            }
            $last[$key] = $at;
        }
    }
    exit("no two calls count on one key\n");
}

function is_counted(array $is): bool
{
    return $is['kind'] === INC && $is['number'] !== 0 && $is['reply'] === INTEGER;
}

function counted_from(array $is): int
{
    return $is['answer'] - $is['number'];
}
