<?php // SPDX-License-Identifier: MIT

// php play.php SCRIPT
// Plays a script of one worker on PHP's APCu: its pools' lines with the class Pool, and those that read a key outside
// pools. Prints what apcu_run prints, up to its journal. At a line `time` this waits for as many seconds of the clock.

declare(strict_types=1);

namespace ApcuPools;

use function ApcuRecord\{lines_of, opened, second_of, word_of};

require __DIR__ . '/../../php/lines.php';
require __DIR__ . '/pool.php';

$lines = iterator_to_array(lines_of(opened($argv[1])));
if (preg_grep('/^time /', $lines) !== []) {
    wait_until(0);
}
foreach ($lines as $line) {
    $word = word_of($line);
    if ($word === 'time') {
        wait_until(second_of($line));
    } else {
        echo $word === 'worker' ? "worker 0\n" : answer($word, arguments($line)) . "\n";
    }
}

function answer(string $word, array $of): string
{
    if (!str_starts_with($word, 'pool_')) {
        return match ($word) {
            'apcu_fetch' => serialize(apcu_fetch($of[0], $is_there)) . serialize($is_there),
            'apcu_exists', 'apcu_store' => serialize($word(...$of)),
        };
    }
    $pool = new Pool(array_shift($of));
    return serialize(match ($word) {
        'pool_get' => $pool->get(...$of),
        'pool_set' => $pool->set(...$of),
        'pool_delete' => $pool->delete(...$of),
        'pool_clear' => $pool->clear(...$of),
        'pool_get_multiple' => $pool->getMultiple(...$of),
        'pool_set_multiple' => $pool->setMultiple(...$of),
        'pool_delete_multiple' => $pool->deleteMultiple(...$of),
        'pool_has' => $pool->has(...$of),
    });
}

/** The values after a line's word. Each value has one text, so its text ends where the next one begins. */
function arguments(string $line): array
{
    $values = [];
    $at = strlen(word_of($line)) + 1;
    while ($at < strlen($line)) {
        $values[] = @unserialize(substr($line, $at));
        $at += strlen(serialize(end($values))) + 1;
    }
    return $values;
}

/** Waits until this many seconds of the clock that APCu reads have begun since the first one. */
function wait_until(int $seconds): void
{
    static $first = null;
    $first ??= intdiv(hrtime(true), 1_000_000_000) + 1;
    while (intdiv(hrtime(true), 1_000_000_000) < $first + $seconds) {
        usleep(500);
    }
}
