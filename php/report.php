<?php // SPDX-License-Identifier: MIT

// php report.php [--program PATH] [--replay PATH] [--html FILE] [--try "OPTIONS"].. INPUT
// Plays calls once for each setting, and prints what came of it, as a table and as an HTML page, which also has a picture
// of each cache's words at the end. INPUT is an input of apcu_run, which plays it; or a recorder's folder, and then the
// first setting is the site's own one, and the last line tells what was left out. A record of the extension is played by
// apcu_replay, which takes caches of up to 2 GB. Of the scripts of record.php, join.php --one makes an input; what the
// site's APCu itself came to follows the first setting.

declare(strict_types=1);

namespace ApcuRecord;

require __DIR__ . '/lines.php';
require __DIR__ . '/events/files.php';
require __DIR__ . '/report/site.php';
require __DIR__ . '/report/map.php';
require __DIR__ . '/report/play.php';
require __DIR__ . '/report/page.php';

const SETTINGS = [
    '--shm-size 8M', '--shm-size 16M', '--shm-size 32M', '--shm-size 64M', '--shm-size 128M',
    '--shm-size 32M --ttl 60', '--shm-size 32M --ttl 3600',
];

const USAGE = 'usage: php report.php [--program PATH] [--replay PATH] [--html FILE] [--try "OPTIONS"].. INPUT';

[$program, $replayer, $page, $settings, $input] = asked(array_slice($argv, 1));
$record = is_recorded($input) ? record_of($input) : null;
$site = $record !== null ? site_of_record($record) : (is_dir($input) ? site_of($input) : null);
$played = $record !== null ? $record->path : with_questions(is_dir($input) ? joined($input) : $input);
[$rows, $pictures] = [[], []];
put(STDOUT, line('setting', array_values(COLUMNS)));
foreach (all_settings($settings, $site) as $setting) {
    [$output, $message] = match (true) {
        $record !== null => run_for($setting, [$replayer, '--play', '--map'], [$played]),
        $site?->size > MOST_SIZE && $setting === $site->setting => [null, 'no more than ' . MOST_SIZE . ' bytes can be played'],
        default => run_for($setting, [$program, '--map', '1'], [], $played),
    };
    if ($output === null) {
        $rows[$setting] = $message;
    } else {
        [$rows[$setting], $cells] = $record !== null ? replayed($output) : told($played, $output);
        $pictures[$setting] = $page === null ? '' : map_picture($cells);
    }
    tell_row($setting, $rows[$setting]);
    if ($site?->row !== null && count($rows) === 1) {
        $rows['APCu itself'] = $site->row;
        tell_row('APCu itself', $site->row);
    }
}
put(STDOUT, $site === null ? '' : "$site->left\n");
if ($page !== null) {
    put(opened($page, 'wb'), page(basename($input), $rows, $pictures, $site?->left), $page);
}

/**
 * The settings to play, the site's own one first.
 *
 * @param list<string> $tried those that were asked for
 * @return list<string>
 */
function all_settings(array $tried, ?Site $site): array
{
    $others = $tried ?: array_map(static fn (string $setting): string => $setting . $site?->rest, SETTINGS);
    return array_values(array_unique($site === null ? $others : [$site->setting, ...$others]));
}

function tell_row(string $setting, array|string $row): void
{
    put(STDOUT, line($setting, is_array($row) ? shown_all($row) : $row));
}

/** The programs, the page, the settings and the input. */
function asked(array $words): array
{
    [$program, $replayer, $page, $settings, $inputs] = [dirname(__DIR__) . '/apcu_run', null, null, [], []];
    while ($words !== []) {
        $word = array_shift($words);
        match ($word) {
            '--program' => $program = array_shift($words) ?? give_up(USAGE),
            '--replay' => $replayer = array_shift($words) ?? give_up(USAGE),
            '--html' => $page = array_shift($words) ?? give_up(USAGE),
            '--try' => $settings[] = array_shift($words) ?? give_up(USAGE),
            default => $inputs[] = $word,
        };
    }
    if (count($inputs) !== 1 || ($inputs[0][0] ?? '-') === '-') {
        give_up(USAGE);
    }
    if (is_recorded($inputs[0])) {
        $replayer = replayer($replayer);
    } elseif (!is_file($program) || !is_executable($program)) {
        give_up("$program is not an executable: build it by ./prove, or name apcu_run with --program");
    }
    if ($page !== null) {
        // Printed before minutes of play, and kept until there is something new.
        opened($page, 'cb');
    }
    return [$program, $replayer, $page, $settings, $inputs[0]];
}

/** A line of the table; or the message if there are no cells. */
function line(string $setting, array|string $cells): string
{
    return is_string($cells)
        ? sprintf("%-28s %s\n", $setting, $cells)
        : vsprintf("%-28s %9s %8s %8s %8s %8s %10s %16s\n", [$setting, ...$cells]);
}

function shown_all(array $row): array
{
    return array_map(shown(...), array_keys($row), array_values($row));
}

function shown(string $name, int|float|null $value): string
{
    return match ($value === null ? '' : $name) {
        '' => '-',
        'rate' => sprintf('%.2f %%', 100 * $value),
        'used', 'free' => sprintf('%.2f MB', $value / 1_048_576),
        default => (string) $value,
    };
}
