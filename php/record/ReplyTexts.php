<?php // SPDX-License-Identifier: MIT

declare(strict_types=1);

namespace ApcuRecord;

/** What APCu answered, as apcu_run prints replies. */
final class ReplyTexts
{
    /** The reply to the lines of one call. */
    public static function add(string $word, string $lines, mixed $answer, ?bool $success = null): void
    {
        [$parts, Calls::$parts] = [Calls::$parts, null];
        if ($lines === '') {
            return;
        }
        if ($parts !== null) {
            self::add_parts($parts, $answer);
        } elseif ($word === 'apcu_delete' && \is_array($answer)) {
            Script::reply(\serialize(\array_values(\array_filter($answer, 'is_string'))) . "\n");
        } else {
            Script::reply(\serialize($answer) . ($success === null ? '' : \serialize($success)) . "\n");
        }
    }

    /** The reply to a walk, by an iterator of its own. */
    public static function walk(array $args, array $fields): string
    {
        $rows = [];
        foreach (new \APCUIterator(...$args) as $row) {
            $rows[] = \array_intersect_key($row, $fields);
        }
        return \serialize($rows) . "\n";
    }

    public static function totals(\APCUIterator $iterator): string
    {
        return \serialize([
            'count' => $iterator->getTotalCount(),
            'hits' => $iterator->getTotalHits(),
            'size' => $iterator->getTotalSize(),
        ]) . "\n";
    }

    /** The replies if a store of many keys became a line for each. */
    private static function add_parts(array $keys, mixed $failed): void
    {
        foreach ($keys as $key) {
            Script::reply(isset($failed[$key]) ? "b:0;\n" : "b:1;\n");
        }
    }
}
