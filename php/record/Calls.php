<?php // SPDX-License-Identifier: MIT

declare(strict_types=1);

namespace ApcuRecord;

/** The lines of calls. A call that a script cannot say gives none, and is counted. */
final class Calls
{
    public const WORDS = [
        'apcu_store', 'apcu_add', 'apcu_fetch', 'apcu_exists', 'apcu_delete', 'apcu_inc', 'apcu_dec', 'apcu_cas',
        'apcu_clear_cache', 'apcu_enabled', 'apcu_key_info', 'apcu_cache_info', 'apcu_sma_info',
    ];
    private const MOST_TTL = 4_294_967_295;

    /** @var ?list<string> the keys of a store that became one line a key */
    public static ?array $parts = null;

    /** Records any other call. */
    public static function made(string $word, array $args): void
    {
        try {
            Script::call(self::line($word, $args));
        } catch (\Throwable $fault) {
            Script::stop($fault->getMessage());
        }
    }

    /** Records a call of `apcu_fetch` for many keys, or a wrong one. */
    public static function fetched(mixed $keys): void
    {
        try {
            Script::call(
                \is_array($keys) ? 'apcu_fetch ' . Text::keys($keys) . "\n" : self::look('apcu_fetch', $keys)
            );
        } catch (\Throwable $fault) {
            Script::stop($fault->getMessage());
        }
    }

    /** Records a call of `apcu_store`. */
    public static function stored(int $count, mixed $key, mixed $value, mixed $ttl): void
    {
        try {
            Script::call(self::store('apcu_store', $count, $key, $value, $ttl));
        } catch (\Throwable $fault) {
            Script::stop($fault->getMessage());
        }
    }

    public static function line(string $word, array $args): string
    {
        return match ($word) {
            'apcu_store', 'apcu_add' => self::store($word, \count($args), ...$args + [null, null, 0]),
            'apcu_fetch', 'apcu_exists', 'apcu_delete' => self::look($word, $args[0] ?? null),
            'apcu_inc', 'apcu_dec' => self::count($word, $args),
            'apcu_cas' => self::swap($args),
            'apcu_key_info' => self::key_info($args),
            'apcu_cache_info', 'apcu_sma_info' => self::info($word, $args[0] ?? false),
            default => "$word\n",
        };
    }

    /** The lines of a store with this many arguments. */
    public static function store(string $word, int $count, mixed $key, mixed $value, mixed $ttl): string
    {
        self::$parts = null;
        if ($ttl !== 0 && ($ttl = self::seconds($ttl)) === null) {
            return self::left('argument', $key);
        }
        if (\is_string($key) && $count > 1) {
            $text = Text::told($value, $key);
            return $text === null ? '' : "$word " . \serialize($key) . " $text" . ($ttl === 0 ? "\n" : " i:$ttl;\n");
        }
        return \is_array($key) ? self::map($word, $key, $ttl) : self::left('argument');
    }

    /** How long a row may live, as PHP converts it without strict types; null if a script can't express it. */
    public static function seconds(mixed $ttl): ?int
    {
        if (!\is_int($ttl)) {
            $is_whole = (\is_float($ttl) || \is_string($ttl) && \is_numeric($ttl)) && (float) $ttl === \floor((float) $ttl);
            $ttl = $is_whole || \is_bool($ttl) || $ttl === null ? (int) $ttl : -1;
        }
        return $ttl >= 0 && $ttl <= self::MOST_TTL ? $ttl : null;
    }

    public static function left(string $kind, mixed $keys = null): string
    {
        Script::left($kind, $keys);
        return '';
    }

    /**
     * A store of many keys. APCu makes one store after the other, and copies each value by itself. So if the values
     * may share something, and if one of them can't be expressed, there is a line for each key.
     */
    private static function map(string $word, array $map, int $ttl): string
    {
        $text = Text::of_array($map);
        if ($text !== null && Text::$is_plain) {
            return $ttl === 0 ? "$word $text\n" : "$word $text N; i:$ttl;\n";
        }
        $lines = '';
        $parts = [];
        foreach ($map as $key => $value) {
            $line = self::store($word, 2, (string) $key, $value, $ttl);
            $lines .= $line;
            if ($line !== '') {
                $parts[] = (string) $key;
            }
        }
        self::$parts = $parts;
        return $lines;
    }

    private static function look(string $word, mixed $keys): string
    {
        return match (true) {
            \is_string($keys) => "$word " . \serialize($keys) . "\n",
            \is_array($keys) => "$word " . Text::keys($keys) . "\n",
            $word === 'apcu_delete' => $keys instanceof \APCUIterator
                ? Iterators::deleted($keys)
                : self::left('argument'),
            // As APCu does, but what an object says of itself is not asked for twice.
            \is_scalar($keys), $keys === null => "$word " . \serialize((string) $keys) . "\n",
            default => self::left('argument'),
        };
    }

    private static function count(string $word, array $args): string
    {
        [$key, $step, $ttl] = [$args[0] ?? null, $args[1] ?? 1, self::seconds($args[3] ?? 0)];
        if (!\is_string($key) || !\is_int($step) || $ttl === null) {
            return self::left('argument', $key);
        }
        return "$word " . \serialize($key) . " i:$step;" . ($ttl === 0 ? "\n" : " i:$ttl;\n");
    }

    private static function swap(array $args): string
    {
        [$key, $expect, $set] = $args + [null, null, null];
        if (!\is_string($key) || !\is_int($expect) || !\is_int($set)) {
            return self::left('argument', $key);
        }
        return 'apcu_cas ' . \serialize($key) . " i:$expect; i:$set;\n";
    }

    private static function key_info(array $args): string
    {
        $key = $args[0] ?? null;
        return \is_string($key) ? 'apcu_key_info ' . \serialize($key) . "\n" : self::left('argument', $key);
    }

    private static function info(string $word, mixed $limited): string
    {
        return \is_bool($limited) ? "$word b:" . (int) $limited . ";\n" : self::left('argument');
    }
}
