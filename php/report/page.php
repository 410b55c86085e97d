<?php // SPDX-License-Identifier: MIT

// The report as one HTML file: a section for each column, with a bar for each setting, and the map of each.

declare(strict_types=1);

namespace ApcuRecord;

const STYLE = <<<'CSS'
body { font: 15px/1.4 sans-serif; max-width: 60em; margin: 2em auto; padding: 0 1em; color: #222; }
h2 { font-size: 1.1em; margin: 1.8em 0 .4em; }
table { border-collapse: collapse; width: 100%; }
td { padding: .15em .5em; }
td:first-child { width: 17em; white-space: nowrap; font-family: monospace; }
td:last-child { width: 7em; text-align: right; white-space: nowrap; }
.bar { background: #4a7ab5; height: 1em; min-width: 1px; }
.fault { color: #a00; }
figure { margin: 0 0 1.2em; }
figcaption { font-family: monospace; padding: .15em .5em; }
svg { width: 100%; }
CSS;

function page(string $name, array $rows, array $pictures, ?string $left): string
{
    $title = 'The cache of ' . htmlspecialchars($name);
    $sections = '';
    foreach (COLUMNS as $column => $words) {
        $sections .= section($column, $words, $rows);
    }
    $sections .= $pictures === [] ? '' : "<h2>The words of each cache at the end</h2>\n";
    foreach ($pictures as $setting => $picture) {
        $sections .= '<figure><figcaption>' . htmlspecialchars($setting) . "</figcaption>\n$picture</figure>\n";
    }
    return "<!DOCTYPE html>\n<html lang=\"en\">\n<meta charset=\"utf-8\">\n<title>$title</title>\n<style>\n" . STYLE
        . "\n</style>\n<h1>$title</h1>\n$sections" . ($left === null ? '' : '<p>' . htmlspecialchars($left) . "</p>\n")
        . "</html>\n";
}

function section(string $column, string $words, array $rows): string
{
    $values = array_column(array_filter($rows, is_array(...)), $column);
    $most = $column === 'rate' ? 1 : max(1, ...$values ?: [1]);
    $text = '<h2>' . ucfirst($words) . "</h2>\n<table>\n";
    foreach ($rows as $setting => $row) {
        $text .= '<tr><td>' . htmlspecialchars($setting) . '</td>' . (is_array($row)
            ? bar($row[$column] === null ? null : $row[$column] / $most, shown($column, $row[$column]))
            : '<td class="fault">' . htmlspecialchars($row) . '</td><td></td>') . "</tr>\n";
    }
    return "$text</table>\n";
}

function bar(?float $part, string $words): string
{
    if ($part === null) {
        return "<td></td><td>$words</td>";
    }
    $width = sprintf('%.2f', 100 * $part);
    return "<td><div class=\"bar\" style=\"width: $width%\"></div></td><td>$words</td>";
}
