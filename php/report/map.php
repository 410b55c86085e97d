<?php // SPDX-License-Identifier: MIT

// The map that apcu_run prints with --map 1, and a picture of it.

declare(strict_types=1);

namespace ApcuRecord;

const MAP_WIDTH = 1024;
const MAP_ROWS = 32;
const MAP_COLOURS = [
    'slots' => '#8d8d99', 'row' => '#4a7ab5', 'mixed' => '#a9c1dd', 'removed' => '#d08a3c', 'free' => '#e6e8ec',
];
const MAP_WORDS = [
    'slots' => 'hash chains', 'row' => 'rows', 'mixed' => 'rows and gaps', 'removed' => 'removed rows', 'free' => 'free',
];

/** Advances in an output to after its line `map`; whether there is one. */
function reaches_map(\Generator $lines): bool
{
    for (; $lines->valid(); $lines->next()) {
        if ($lines->current() === "map\n") {
            $lines->next();
            return true;
        }
    }
    return false;
}

/**
 * The content of a map, from the line after `map` on: its blocks and free runs as cells of a picture, and the largest
 * free run in words. The hash chains come before the first block or free run.
 *
 * @return array{Cells, int}
 */
function map_of(\Generator $lines): array
{
    $cells = new Cells();
    $largest = 0;
    for (; $lines->valid(); $lines->next()) {
        $words = explode(' ', $lines->current(), 4);
        if ($words[0] === 'largest') {
            $largest = (int) $words[1];
        } elseif (isset(MAP_COLOURS[$words[0]]) && is_numeric($words[1])) {
            if ($cells->end === 0) {
                $cells->add('slots', 0, (int) $words[1]);
            }
            $cells->add($words[0], (int) $words[1], (int) $words[2]);
        }
    }
    return [$cells, $largest];
}

/** The words of a cache as cells of one size. The size grows with the map, so the number of cells is limited. */
final class Cells
{
    private const MOST = MAP_ROWS * MAP_WIDTH;

    /** How many words the map has so far. */
    public int $end = 0;
    /** How many of them a cell has; all places and sizes are even. */
    public int $size = 2;
    /** @var array<string, array<int, int>> of each kind how many words each cell has */
    private array $words = [];

    public function add(string $kind, int $place, int $size): void
    {
        $this->end = $place + $size;
        while ($this->end > self::MOST * $this->size) {
            $this->grow();
        }
        for ($cell = intdiv($place, $this->size); $cell * $this->size < $this->end; $cell++) {
            $part = min($this->end, ($cell + 1) * $this->size) - max($place, $cell * $this->size);
            $this->words[$kind][$cell] = ($this->words[$kind][$cell] ?? 0) + $part;
        }
    }

    public function count(): int
    {
        return intdiv($this->end + $this->size - 1, $this->size);
    }

    /** The kind that most words of a cell have; `mixed` if more than an eighth is free and more than one is not. */
    public function kind(int $cell): string
    {
        $shares = array_filter(array_map(static fn (array $of): int => $of[$cell] ?? 0, $this->words));
        $free = 8 * ($shares['free'] ?? 0);
        $all = array_sum($shares);
        return $free > $all && $free < 7 * $all ? 'mixed' : (string) array_search(max($shares), $shares, true);
    }

    private function grow(): void
    {
        $this->size *= 2;
        foreach ($this->words as $kind => $of) {
            $this->words[$kind] = [];
            foreach ($of as $cell => $words) {
                $this->words[$kind][$cell >> 1] = ($this->words[$kind][$cell >> 1] ?? 0) + $words;
            }
        }
    }
}

/** The cells as a picture, row by row, and below it what the colours are. */
function map_picture(Cells $cells): string
{
    $columns = 64;
    while ($columns * MAP_ROWS < $cells->count()) {
        $columns *= 2;
    }
    $rows = intdiv($cells->count() + $columns - 1, $columns);
    $picture = '';
    foreach (paths_of($cells, $columns) as $kind => $path) {
        $picture .= sprintf("<path fill=\"%s\" d=\"%s\"/>\n", MAP_COLOURS[$kind], $path);
    }
    foreach (array_keys(MAP_COLOURS) as $at => $kind) {
        $picture .= sprintf(
            "<rect x=\"%d\" y=\"%d\" width=\"12\" height=\"12\" fill=\"%s\"/><text x=\"%d\" y=\"%d\">%s</text>\n",
            145 * $at, 10 * $rows + 8, MAP_COLOURS[$kind], 145 * $at + 18, 10 * $rows + 19, MAP_WORDS[$kind],
        );
    }
    return sprintf(
        "<svg xmlns=\"http://www.w3.org/2000/svg\" viewBox=\"0 0 %d %d\" font-family=\"sans-serif\" font-size=\"14\">\n"
        . "%s<text x=\"%d\" y=\"%d\" text-anchor=\"end\">a row of the picture is %s bytes</text>\n</svg>\n",
        MAP_WIDTH, 10 * $rows + 30, $picture, MAP_WIDTH, 10 * $rows + 19, number_format(8 * $columns * $cells->size),
    );
}

/**
 * The outlines of each kind's cells; neighbours of one kind in a row are one piece.
 *
 * @return array<string, string>
 */
function paths_of(Cells $cells, int $columns): array
{
    $paths = [];
    $wide = intdiv(MAP_WIDTH, $columns);
    for ($from = 0; $from < $cells->count(); $from = $upto) {
        $kind = $cells->kind($from);
        $upto = $from + 1;
        while ($upto < $cells->count() && $upto % $columns > 0 && $cells->kind($upto) === $kind) {
            $upto++;
        }
        $width = $wide * ($upto - $from);
        $paths[$kind] = ($paths[$kind] ?? '')
            . sprintf('M%d %dh%dv9h-%dz', $wide * ($from % $columns), 10 * intdiv($from, $columns), $width, $width);
    }
    return $paths;
}
