<?php // SPDX-License-Identifier: MIT

// Which row of docs/DIFFERENCES.md names a difference.

declare(strict_types=1);

namespace ApcuRecord;

/** What is known of keys from the calls so far: those for which a value was left out, and when a row has expired. */
final class Seen
{
    private const ROWS = [
        'double' => 'No doubles', 'enumeration' => 'No enumerations', 'hooks' => 'Objects are data',
        'depth' => 'How deep values nest', 'key' => 'One text for each value',
        'argument' => 'Arguments are not converted',
        'entry in a generator' => 'A generator is written, not run', 'pattern' => 'No back-references',
        'search by an array' => 'Slashes and one flag', 'iterator' => 'Deleting by an iterator',
    ];

    /** @var array<string, int> what was left out, and what a string stands for */
    public array $counts = [];
    public ?string $of_all = null;
    public int $now = 0;
    /** @var array<string, string> the row that names why a key's value was left out */
    private array $left = [];
    /** @var array<string, string> the same of values that a string replaces in one of the next lines */
    private array $stands = [];
    /** @var array<string, int> the last second of a row */
    private array $ends = [];

    public function sets_time(string $line): bool
    {
        $word = word_of($line);
        if ($word === 'time' || $word === 'request') {
            $this->now = second_of($line);
        }
        return $word === 'time' || $word === 'request' || $word === 'worker';
    }

    public static function is_note(string $line): bool
    {
        return str_starts_with($line, 'left ') || str_starts_with($line, 'stands ');
    }

    /**
     * A line `left KIND KEYS`, with which the recorder says that a call is not in the script, or `stands KIND KEYS`: a
     * string stands for a value in one of the next lines.
     */
    public function note(string $line): void
    {
        $word = word_of($line);
        $at = strcspn($line, ':') - 1;
        // No keys are `N;`.
        $at = str_ends_with($line, " N;\n") ? strlen($line) - 3 : $at;
        $kind = trim(substr($line, strlen($word), $at - strlen($word)));
        $keys = @unserialize(substr($line, $at), ['allowed_classes' => false]);
        $what = $word === 'left' ? "calls left out: $kind" : "values for which a string stands: $kind";
        $this->counts[$what] = ($this->counts[$what] ?? 0) + 1;
        $row = self::ROWS[$kind] ?? "a value that the recorder left out ($kind)";
        foreach (is_array($keys) ? array_filter($keys, 'is_string') : [] as $key) {
            if ($word === 'left') {
                $this->left[$key] = $row;
            } else {
                $this->stands[$key] = $row;
            }
        }
        $this->of_all = in_array($kind, ['pattern', 'search by an array', 'iterator'], true) ? $row : $this->of_all;
    }

    /** Notes what a call leaves behind. */
    public function made(string $line): void
    {
        $word = word_of($line);
        if ($word === 'apcu_clear_cache') {
            $this->left = $this->ends = [];
        }
        if ($word === 'apcu_store' || $word === 'apcu_delete') {
            $ttl = preg_match('/ i:([0-9]+);\n$/D', $line, $found) === 1 ? (int) $found[1] : 0;
            foreach (keys_of_line($line) as $key) {
                unset($this->left[$key]);
                $this->ends[$key] = $ttl > 0 ? $this->now + $ttl : PHP_INT_MAX;
            }
        }
        foreach (keys_of_line($line) as $key) {
            if (isset($this->stands[$key])) {
                $this->left[$key] = $this->stands[$key];
                unset($this->stands[$key]);
            }
        }
    }

    public function is_over(string $line): bool
    {
        foreach (keys_of_line($line) as $key) {
            if (($this->ends[$key] ?? PHP_INT_MAX) <= $this->now) {
                return true;
            }
        }
        return false;
    }

    public function row_of_keys(string $line): ?string
    {
        foreach (keys_of_line($line) as $key) {
            if (isset($this->stands[$key]) || isset($this->left[$key])) {
                return $this->stands[$key] ?? $this->left[$key];
            }
        }
        return $this->of_all;
    }

    public function any_row(): ?string
    {
        return $this->of_all ?? (reset($this->left) ?: ($this->counts === [] ? null : 'calls that were left out'));
    }
}

function keys_of_line(string $line): array
{
    $key = key_of($line);
    if ($key !== null) {
        return [$key];
    }
    $word = word_of($line);
    $many = @unserialize(substr($line, strlen($word) + 1), ['allowed_classes' => false]);
    return !is_array($many) ? [] : array_map('strval', str_contains($word, 'store') || $word === 'apcu_add'
        ? array_keys($many)
        : $many);
}

function row_of(Seen $seen, string $line, string $theirs, string $ours): ?string
{
    $word = word_of($line);
    return match ($word) {
        'apcu_sma_info' => 'What is told of the segment',
        'apcu_cache_info' => told_alike($theirs, $ours, CACHE_COUNTS) ? 'What is told of the cache' : $seen->any_row(),
        'apcu_key_info' => match (true) {
            told_alike($theirs, $ours, ROW_FIELDS) => 'What is told of a row',
            $ours === "N;\n" && $seen->is_over($line) => 'Information on a row whose time is over',
            default => $seen->row_of_keys($line),
        },
        'APCUIterator_totals' => told_alike($theirs, $ours, ['count', 'hits']) ? 'How much fits' : $seen->any_row(),
        'APCUIterator' => rows_of($theirs) === rows_of($ours) ? 'The order of slots' : $seen->any_row(),
        'apcu_delete' => $seen->is_over($line) ? 'Deleting a row whose time is over' : $seen->row_of_keys($line),
        default => row_of_answer($theirs, $ours) ?? $seen->row_of_keys($line),
    };
}

const CACHE_COUNTS = ['num_hits', 'num_misses', 'num_inserts', 'num_entries', 'expunges'];
const ROW_FIELDS = ['hits', 'access_time', 'mtime', 'creation_time', 'deletion_time', 'ttl'];

/** PHP reads an array with numbers for keys, and each key once. */
function row_of_answer(string $theirs, string $ours): ?string
{
    $end = str_ends_with($theirs, "}b:1;\n") ? "b:1;\n" : "\n";
    $value = @unserialize(substr($theirs, 0, -strlen($end)), ['allowed_classes' => false]);
    if (!is_array($value) || serialize($value) . $end !== $ours) {
        return null;
    }
    return members_of($theirs) === members_of($ours)
        ? 'A key that is a number, in an answered array'
        : 'A key that is asked for twice';
}

/** Whether both tell the same of these fields. */
function told_alike(string $theirs, string $ours, array $fields): bool
{
    $all = array_map(fn (string $text): mixed => @unserialize(rtrim($text, "\n")), [$theirs, $ours]);
    if (!is_array($all[0]) || !is_array($all[1])) {
        return false;
    }
    foreach ($fields as $field) {
        // Counts of APCu are doubles.
        if ((int) $all[0][$field] !== (int) $all[1][$field]) {
            return false;
        }
    }
    return true;
}

/** The rows of a walk without their sizes, in one order. */
function rows_of(string $reply): array
{
    $rows = [];
    foreach (@unserialize(rtrim($reply, "\n"), ['allowed_classes' => false]) ?: [] as $row) {
        unset($row['mem_size']);
        $rows[] = serialize($row);
    }
    sort($rows);
    return $rows;
}
