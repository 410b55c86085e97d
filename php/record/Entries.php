<?php // SPDX-License-Identifier: MIT

declare(strict_types=1);

namespace ApcuRecord;

/**
 * An entry's line comes after the call, with its result as the generator's value: whether the row was there or not,
 * the script's reply is that value, with other settings too. Calls that the generator made come before the line.
 */
final class Entries
{
    private static int $depth = 0;
    private static bool $is_own = false;

    /** The recorder itself makes the next call. */
    public static function begin(): void
    {
        self::$depth++;
        self::$is_own = true;
    }

    /** uopz shows an entry inside a generator before it is made, but not what it gave. */
    public static function seen(mixed $key): void
    {
        if (self::$is_own) {
            self::$is_own = false;
        } elseif (self::$depth > 0) {
            Script::left('entry in a generator', $key);
        }
    }

    /** Records an entry that answered. */
    public static function gave(array $args, mixed $answer, int $second): void
    {
        self::end();
        try {
            $line = self::line($args[0] ?? null, $answer, $args[2] ?? 0);
            Script::call($line, $second);
            if ($line !== '' && Script::$tells_replies) {
                Script::reply(\serialize($answer) . "\n");
            }
        } catch (\Throwable $fault) {
            Script::stop($fault->getMessage());
        }
    }

    /** Records an entry whose generator threw: a look-up that found nothing. */
    public static function threw(array $args, int $second): void
    {
        self::end();
        $has_run = \is_string($args[0] ?? null) && \is_callable($args[1] ?? null) && \is_int($args[2] ?? 0);
        if ($has_run) {
            Script::call('apcu_fetch ' . \serialize($args[0]) . "\n", $second);
            if (Script::$tells_replies) {
                Script::reply("b:0;b:0;\n");
            }
        }
    }

    private static function line(mixed $key, mixed $answer, mixed $ttl): string
    {
        $ttl = Calls::seconds($ttl);
        if (!\is_string($key) || $ttl === null) {
            return Calls::left('argument', $key);
        }
        $text = Text::told($answer, $key);
        return $text === null ? '' : 'apcu_entry ' . \serialize($key) . " ($text)" . ($ttl === 0 ? "\n" : " i:$ttl;\n");
    }

    private static function end(): void
    {
        self::$depth--;
        self::$is_own = false;
    }
}
