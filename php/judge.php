<?php // SPDX-License-Identifier: MIT

// php judge.php [--proved] [--replay PATH] [--program PATH] [--server NAME] FOLDER
// Judges what the extension recorded with apc.record_dir: whether each reply is the one of a cache that gets the calls in
// their order. The judge is apcu_replay, which compares in C the replies of the proved engine; with --proved it is
// apcu_run --verify, which is proved as a whole and takes records of up to some 67 MB. Status 0: each reply is right. 9: one
// is not, and it is shown. 2: those that could be judged are right, but some could not be. 1: nothing was judged.

declare(strict_types=1);

namespace ApcuRecord;

require __DIR__ . '/lines.php';
require __DIR__ . '/events/files.php';
require __DIR__ . '/events/events.php';
require __DIR__ . '/events/stretches.php';
require __DIR__ . '/events/verdict.php';

const USAGE = 'usage: php judge.php [--proved] [--replay PATH] [--program PATH] [--server NAME] FOLDER';

ini_set('memory_limit', '-1');
[$is_proved, $replayer, $program, $server, $path] = asked(array_slice($argv, 1));
$replayer = replayer($replayer);
$record = record_of($path, $server);
exit($is_proved ? proved($program, $replayer, $record) : passed_on([$replayer, $record->path]));

/** @return array{bool, ?string, string, ?string, string} whether apcu_run judges, the two programs, the server, the path */
function asked(array $words): array
{
    [$is_proved, $replayer, $program, $server, $paths] = [false, null, dirname(__DIR__) . '/apcu_run', null, []];
    while ($words !== []) {
        $word = array_shift($words);
        match ($word) {
            '--proved' => $is_proved = true,
            '--replay' => $replayer = array_shift($words) ?? give_up(USAGE),
            '--program' => $program = array_shift($words) ?? give_up(USAGE),
            '--server' => $server = array_shift($words) ?? give_up(USAGE),
            default => $paths[] = $word,
        };
    }
    if (count($paths) !== 1 || $paths[0] === '' || $paths[0][0] === '-') {
        give_up(USAGE);
    }
    if ($is_proved && (!is_file($program) || !is_executable($program))) {
        give_up("$program is not an executable: build it by ./prove, or name apcu_run with --program");
    }
    return [$is_proved, $replayer, $program, $server, $paths[0]];
}
