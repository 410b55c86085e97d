<?php // SPDX-License-Identifier: MIT

declare(strict_types=1);

namespace ApcuRecord;

require __DIR__ . '/Pattern.php';

/**
 * PHP does not report when a loop runs over an iterator. So a walk is recorded where its iterator is made, unless the
 * next call deletes by it or asks it for a total.
 */
final class Iterators
{
    private const FIELDS = [
        'key' => APC_ITER_KEY, 'value' => APC_ITER_VALUE, 'num_hits' => APC_ITER_NUM_HITS, 'mtime' => APC_ITER_MTIME,
        'creation_time' => APC_ITER_CTIME, 'deletion_time' => APC_ITER_DTIME, 'access_time' => APC_ITER_ATIME,
        'mem_size' => APC_ITER_MEM_SIZE, 'ttl' => APC_ITER_TTL,
    ];

    /** @var \WeakMap<\APCUIterator, array>|null what each iterator was made with, and whether its totals were read */
    private static ?\WeakMap $all = null;

    public static function made(\APCUIterator $iterator, array $args): void
    {
        try {
            $made = self::read($args);
            Script::call($made['walk']);
            if (Script::$tells_replies && $made['walk'] !== '') {
                $made['reply'] = ReplyTexts::walk($args, self::FIELDS);
                Script::reply($made['reply']);
            }
            self::$all ??= new \WeakMap();
            self::$all[$iterator] = $made;
        } catch (\Throwable $fault) {
            Script::stop($fault->getMessage());
        }
    }

    /** The line of a deletion by an iterator. */
    public static function deleted(\APCUIterator $iterator): string
    {
        $made = self::$all[$iterator] ?? null;
        if ($made === null || $made['walk'] === '' || $made['is_deleted_list']) {
            return Calls::left('iterator');
        }
        Script::take_back($made['walk'], $made['reply']);
        return "APCUIterator_delete {$made['search']}{$made['size']}\n";
    }

    /** An iterator counts its totals once. */
    public static function totalled(\APCUIterator $iterator): void
    {
        try {
            $line = self::totals($iterator);
            Script::call($line);
            if (Script::$tells_replies && $line !== '') {
                Script::reply(ReplyTexts::totals($iterator));
            }
        } catch (\Throwable $fault) {
            Script::stop($fault->getMessage());
        }
    }

    private static function totals(\APCUIterator $iterator): string
    {
        $made = self::$all[$iterator] ?? null;
        if ($made === null || $made['walk'] === '' || $made['told_totals']) {
            return '';
        }
        $made['told_totals'] = true;
        self::$all[$iterator] = $made;
        Script::take_back($made['walk'], $made['reply']);
        return "APCUIterator_totals {$made['search']}" . ($made['is_deleted_list'] ? ' s:7:"deleted";' : '') . "\n";
    }

    /** What an iterator was made with, in the words of a script; no walk if a script cannot express it. */
    private static function read(array $args): array
    {
        [$search, $format, $size, $list] = $args + [null, APC_ITER_ALL, 0, APC_LIST_ACTIVE];
        $made = ['walk' => '', 'reply' => '', 'is_deleted_list' => $list === APC_LIST_DELETED, 'told_totals' => false];
        if (!\is_int($format) || !\is_int($size) || $size < 0 || $size > 65_536) {
            Script::left('argument');
            return $made;
        }
        $text = \is_array($search) ? null : Pattern::of($search);
        if ($text === null) {
            Script::left(\is_array($search) ? 'search by an array' : 'pattern');
            return $made;
        }
        $made['search'] = $text;
        $made['size'] = $size === 0 ? '' : " i:$size;";
        $end = $made['is_deleted_list'] ? ' i:' . ($size === 0 ? 100 : $size) . '; s:7:"deleted";' : $made['size'];
        $made['walk'] = "APCUIterator $text " . self::fields($format) . "$end\n";
        return $made;
    }

    private static function fields(int $format): string
    {
        $asked = \array_filter(self::FIELDS, static fn (int $bit): bool => ($format & $bit) !== 0);
        return Text::keys(\array_keys($asked));
    }
}
