<?php // SPDX-License-Identifier: MIT

// php compare.php SCRIPT REPLIES OUTPUT
// Compares what apcu_run printed for a script of one process with the replies of APCu. Differences are counted by the row
// of docs/DIFFERENCES.md that names them; if no row names one the status is 1, and the first ten of these are printed.

declare(strict_types=1);

namespace ApcuRecord;

require __DIR__ . '/../../php/lines.php';
require __DIR__ . '/rows.php';

[, $script, $replies, $output] = $argv;
$theirs = lines_of(opened($replies));
$ours = lines_of(opened($output));
$ours->next(); // its first line is that of the worker
$seen = new Seen();
$named = [];
$calls = $unnamed = 0;
foreach (lines_of(opened($script)) as $line) {
    if ($seen->sets_time($line)) {
        continue;
    }
    for (; Seen::is_note((string) $theirs->current()); $theirs->next()) {
        $seen->note($theirs->current());
    }
    [$asked, $got] = [$theirs->current(), $ours->current()];
    $theirs->next();
    $ours->next();
    $calls++;
    if ($asked !== $got) {
        $row = row_of($seen, $line, (string) $asked, (string) $got);
        $named[$row] = ($named[$row] ?? 0) + 1;
        if ($row === null && $unnamed++ < 10) {
            tell("call $calls: " . cut($line) . '  APCu:     ' . cut((string) $asked)
                . '  this one: ' . cut((string) $got));
        }
    }
    $seen->made($line);
}
for (; Seen::is_note((string) $theirs->current()); $theirs->next()) {
    $seen->note($theirs->current());
}
if ($theirs->valid() || $ours->current() !== "journal\n") {
    give_up('there are more replies than calls');
}
echo "$calls calls, ", $calls - array_sum($named), " replies the same\n";
unset($named['']);
echo $unnamed === 0 ? '' : "  $unnamed: no row\n";
foreach ($named as $row => $count) {
    echo "  $count: $row\n";
}
foreach ($seen->counts as $what => $count) {
    echo "  $count $what\n";
}
exit($unnamed === 0 ? 0 : 1);

function cut(string $text): string
{
    $text = addcslashes(rtrim($text, "\n"), "\0..\37\177..\377");
    return (strlen($text) > 200 ? substr($text, 0, 200) . '..' : $text) . "\n";
}
