<?php // SPDX-License-Identifier: MIT

// What a recorder's folder has besides the calls: the site's own setting, the counters of its APCu, what was left out.

declare(strict_types=1);

namespace ApcuRecord;

/** A site that was recorded. */
final class Site
{
    /**
     * @param int $size bytes of its cache
     * @param string $setting its own one, as options of the program
     * @param string $rest what of it goes with any size and ttl
     * @param array<string, int|float|null>|null $row what its APCu came to, as a row of the report
     * @param string $left a line on what was left out
     */
    public function __construct(
        public readonly int $size,
        public readonly string $setting,
        public readonly string $rest,
        public readonly ?array $row,
        public readonly string $left,
    ) {
    }
}

function site_of_record(Recorded $record): Site
{
    $left = 'nothing was left out' . ($record->has_values ? '' : '; of strings the lengths are known');
    return new Site(...options_of($record->shape, false), row: null, left: $left);
}

function site_of(string $folder): Site
{
    $lines = [];
    foreach (glob("$folder/*.site") as $path) {
        $of = array_map(static fn (string $line): array => explode("\t", $line), file($path, FILE_IGNORE_NEW_LINES));
        $setting ??= array_shift($of);
        array_push($lines, ...array_filter($of, static fn (array $line): bool => count($line) === 7));
    }
    [$size, $slots, $ttl, $by_request] = $setting ?? give_up("$folder: there is no record with the site's setting");
    $shape = new Shape(bytes_of($size), slots_of((int) $slots), max(0, (int) $ttl));
    return new Site(
        ...options_of($shape, (bool) $by_request),
        row: counted_by_apcu($lines),
        left: told_left(sums_left(glob("$folder/*.apcu"))),
    );
}

/** A size of an ini file in bytes. APCu takes fewer than a megabyte for megabytes. */
function bytes_of(string $size): int
{
    $power = strpos(' kmg', strtolower(substr(" $size", -1))) ?: 0;
    $bytes = (int) $size * 1024 ** $power;
    return $bytes < 1_048_576 ? $bytes * 1_048_576 : intdiv($bytes, 16) * 16;
}

/** How many slots the extension makes of apc.entries_hint: twice a prime, but 4,096 stays. */
function slots_of(int $hint): int
{
    if ($hint === 4096) {
        return $hint;
    }
    $hint = $hint > 0 ? $hint : 2000;
    $half = max(128, min(524_287, intdiv($hint, 2) + $hint % 2));
    while (!is_prime($half)) {
        $half++;
    }
    return 2 * $half;
}

function is_prime(int $number): bool
{
    for ($divisor = 2; $divisor * $divisor <= $number; $divisor++) {
        if ($number % $divisor === 0) {
            return false;
        }
    }
    return true;
}

/** @return array{size: int, setting: string, rest: string} the options without those that the program takes for granted */
function options_of(Shape $shape, bool $by_request): array
{
    $size = $shape->size % 1_048_576 === 0 ? intdiv($shape->size, 1_048_576) . 'M' : $shape->size;
    $rest = ($shape->slots === 4096 ? '' : " --slots $shape->slots") . ($by_request ? ' --use-request-time 1' : '');
    $setting = "--shm-size $size" . ($shape->ttl === 0 ? '' : " --ttl $shape->ttl") . $rest;
    return ['size' => $shape->size, 'setting' => $setting, 'rest' => $rest];
}

/**
 * The counters of APCu at the ends of requests. They begin at 0 again when all rows are dropped, so what was counted
 * between the last of these ends and that is missing. Of two ends at once either may come first.
 *
 * @param list<list<string>> $lines
 * @return array<string, int|float|null>|null
 */
function counted_by_apcu(array $lines): ?array
{
    if ($lines === []) {
        return null;
    }
    usort($lines, static fn (array $one, array $other): int => (int) $one[0] <=> (int) $other[0]);
    // By how often rows were dropped to make room, since the cache was cleared; each clearing begins a list of its own.
    $times = [[]];
    foreach ($lines as [, $hits, $misses, $inserts, $expunges, $entries, $used]) {
        $now = [(int) $hits, (int) $misses, (int) $inserts];
        $most = end($times)[$expunges] ?? [0, 0, 0];
        if (2 * array_sum($now) < array_sum($most)) {
            $times[] = [];
            $most = [0, 0, 0];
        }
        $times[array_key_last($times)][$expunges] = array_map(max(...), $now, $most);
    }
    $sum = static fn (int $at): int => array_sum(array_map(
        static fn (array $counts): int => array_sum(array_column($counts, $at)),
        $times,
    ));
    return [
        'rate' => $sum(0) / max(1, $sum(0) + $sum(1)), 'inserts' => $sum(2), 'refused' => null,
        'expunges' => (int) $expunges, 'entries' => (int) $entries, 'used' => (int) $used, 'free' => null,
    ];
}

/**
 * What the recorder left out of scripts, and how many values a string replaces.
 *
 * @param list<string> $paths
 * @return array{left: array<string, int>, stands: array<string, int>}
 */
function sums_left(array $paths): array
{
    $sums = ['left' => [], 'stands' => []];
    foreach ($paths as $path) {
        foreach (@file(substr($path, 0, -5) . '.left', FILE_IGNORE_NEW_LINES) ?: [] as $line) {
            [$how, $kind, $count] = explode("\t", $line);
            $sums[$how][$kind] = ($sums[$how][$kind] ?? 0) + (int) $count;
        }
    }
    arsort($sums['left']);
    arsort($sums['stands']);
    return $sums;
}

function told_left(array $sums): string
{
    $kinds = static fn (array $of): string => implode(', ', array_map(
        static fn (string $kind, int $count): string => "$kind $count",
        array_keys($of),
        array_values($of),
    ));
    return ($sums['left'] === [] ? 'no call was left out' : array_sum($sums['left']) . ' calls were left out ('
        . $kinds($sums['left']) . '), and later fetches of their keys may count otherwise')
        . ($sums['stands'] === [] ? '' : '; a string as long stands for ' . array_sum($sums['stands']) . ' values ('
        . $kinds($sums['stands']) . ')');
}
