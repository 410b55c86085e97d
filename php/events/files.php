<?php // SPDX-License-Identifier: MIT

// The file that the extension writes with apc.record_dir, one for each start of a server. capi/record_file.h has its form.

declare(strict_types=1);

namespace ApcuRecord;

/** The largest cache that apcu_run plays. */
const MOST_SIZE = 134_217_728;

/** More than the head of a record has. */
const HEAD_BYTES = 256;

/** A record of which the head was read. */
final class Recorded
{
    public function __construct(
        public readonly string $path,
        public readonly string $server,
        public readonly Shape $shape,
        public readonly bool $has_values,
    ) {
    }
}

/** What a cache was made with. */
final class Shape
{
    public function __construct(
        public readonly int $size,
        public readonly int $slots,
        public readonly int $ttl,
    ) {
    }

    /** @return list<string> the same for a program */
    public function options(): array
    {
        return ['--shm-size', (string) $this->size, '--slots', (string) $this->slots, '--ttl', (string) $this->ttl];
    }
}

/** Whether a path is what the extension wrote, or a folder of that. */
function is_recorded(string $path): bool
{
    return is_dir($path) ? glob("$path/*.record") !== [] : str_ends_with($path, '.record');
}

/** The record of the server that is named, or else the one that was written last; if there are several, a line lists the others. */
function record_of(string $path, ?string $server = null): Recorded
{
    $records = $times = [];
    foreach (is_dir($path) ? glob("$path/*.record") : [$path] as $name) {
        [$record, $has_events] = begun($name);
        // A server without calls leaves only a head.
        if ($record !== null && ($has_events || !is_dir($path))) {
            $records[$record->server] = $record;
            $times[$record->server] = filemtime($name);
        }
    }
    if ($records === []) {
        give_up(is_dir($path) && !is_readable($path) ? "$path: permission denied" : "$path: no record of the extension");
    }
    arsort($times);
    $server ??= (string) array_key_first($times);
    $record = $records[$server] ?? give_up("$path: no record of the server $server");
    if (count($records) > 1) {
        tell('records of ' . count($records) . " servers or starts: this is that of $server (--server takes one of "
            . implode(', ', array_diff(array_map(strval(...), array_keys($records)), [$server])) . ')');
    }
    return $record;
}

/** @return array{?Recorded, bool} a record, and whether it has events; none, and a line, if it is none */
function begun(string $path): array
{
    $text = (string) fread(opened($path), HEAD_BYTES);
    if (!str_starts_with($text, "apcu record 2\n")) {
        tell("$path is left out: it does not begin as a record");
        return [null, false];
    }
    if (preg_match('/\n((?:[a-z-]+ [0-9a-f]+\n)+)\n/', $text, $found, PREG_OFFSET_CAPTURE) !== 1
        || preg_match('/\Aserver ([0-9a-f]{16})\nshm-size ([0-9]+)\nslots ([0-9]+)\nttl ([0-9]+)\nvalues ([01])\n\z/', $found[1][0], $head) !== 1
    ) {
        tell("$path is left out: its head is not that of a record");
        return [null, false];
    }
    $shape = new Shape((int) $head[2], (int) $head[3], (int) $head[4]);
    return [new Recorded($path, $head[1], $shape, $head[5] === '1'), strlen($text) > $found[0][1] + strlen($found[0][0])];
}

/** The program that reads records: the one that is named, or the one that was built or installed. */
function replayer(?string $path): string
{
    $top = dirname(__DIR__, 2);
    foreach ($path === null ? ["$top/apcu_replay", "$top/capi/apcu_replay", '/usr/bin/apcu_replay'] : [$path] as $program) {
        if (is_file($program) && is_executable($program)) {
            return $program;
        }
    }
    return give_up($path === null
        ? 'apcu_replay is not built: build it by make -C capi apcu_replay, or name it with --replay'
        : "$path is not an executable: name apcu_replay with --replay");
}
