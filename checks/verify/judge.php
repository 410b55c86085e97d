<?php // SPDX-License-Identifier: MIT

// php judge.php PROGRAM COUNT SCRIPTS..
// Plays these scripts and COUNT random ones, and lets the program judge its own outputs with --verify: each is `yes`,
// and each is something else once a line of it is changed. Prints how many there were of each kind.

declare(strict_types=1);

namespace ApcuVerify;

use function ApcuRecord\{give_up, lines_of, opened, put};

require __DIR__ . '/../../php/lines.php';
require __DIR__ . '/scripts.php';
require __DIR__ . '/changes.php';

/** Each output is changed in this many ways; those that are seldom possible come first. */
const CHANGES = 4;

[, $program, $count] = $argv;
$scratch = (string) tempnam(sys_get_temp_dir(), 'apcu');
register_shutdown_function(static fn () => @unlink($scratch));
$yes = $masked = $expunged = 0;
$tried = array_fill_keys(array_keys(KINDS), 0);
foreach (all_scripts((int) $count, array_slice($argv, 3)) as $name => [$options, $script]) {
    $words = $options === '' ? [] : explode(' ', $options);
    [$status, $output] = played([$program, ...$words], $script, $scratch);
    $status === 0 || give_up("$name is not played: status $status");
    $answer = judged([$program, ...$words], $script, $output, $scratch);
    $answer === 'yes' || give_up(kept($scratch, "$name, its own output: $answer"));
    $yes++;
    $whole = new Output($script, $output);
    $masked += (int) $whole->has_masks();
    mt_srand(crc32($name));
    foreach (changes_of($whole) as $kind => [$changed, $wanted]) {
        $answer = judged([$program, ...$words], $script, $changed, $scratch);
        preg_match("/^(?:$wanted)\$/D", $answer) === 1
            || give_up(kept($scratch, "$name, $kind: $answer where $wanted is due"));
        $tried[$kind]++;
    }
}
echo "$yes outputs judged yes, $masked of them with workers that were still copying\n";
echo array_sum($tried), " changed outputs, none judged yes:\n";
foreach ($tried as $kind => $many) {
    echo "  $many with ", KINDS[$kind], "\n";
}

/** @return \Generator<string, array{string, string}> by their names: options and script */
function all_scripts(int $count, array $paths): \Generator
{
    foreach ($paths as $path) {
        yield basename($path) => ['', (string) stream_get_contents(opened($path))];
    }
    for ($seed = 1; $seed <= $count; $seed++) {
        yield "seed $seed" => random_scripts($seed);
    }
}

/** @return array{int, string} status and output */
function played(array $words, string $input, string $scratch, ?string &$message = null): array
{
    put(opened($scratch, 'wb'), $input, $scratch);
    $process = proc_open($words, [opened($scratch), ['pipe', 'w'], ['pipe', 'w']], $pipes);
    $process !== false || give_up("$words[0] cannot be started");
    $output = (string) stream_get_contents($pipes[1]);
    $message = (string) stream_get_contents($pipes[2]);
    return [proc_close($process), $output];
}

/** The program's verdict, with a fault named if its status or message does not match it. */
function judged(array $words, string $script, string $output, string $scratch): string
{
    $words = [...$words, '--verify', (string) strlen($script)];
    [$status, $answer] = played($words, $script . $output, $scratch, $message);
    $wanted = $answer === "yes\n" ? [0, ''] : [9, "apcu_run: differs\n"];
    return [$status, $message] === $wanted && str_ends_with($answer, "\n")
        ? substr($answer, 0, -1)
        : "status $status, '$message'";
}

/** Keeps the input of the last run for debugging. */
function kept(string $scratch, string $text): string
{
    rename($scratch, "$scratch.input");
    return "$text\nthe input: $scratch.input";
}
