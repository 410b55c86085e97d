<?php // SPDX-License-Identifier: MIT

declare(strict_types=1);

namespace ApcuRecord;

/** Values as a script expresses them, as `serialize` writes them; a string of the same length replaces one that it can't. */
final class Text
{
    /** A value inside this many arrays and objects can't be expressed. */
    private const DEPTH = 512;
    /** More members than these in one value are not looked through. */
    private const MEMBERS = 1_000_000;
    /** A longer text is copied only if there is memory for it. */
    private const SHORT = 1_000_000;
    /** How a string begins that may spell a number; what may be a part that is shared. */
    private const NUMBER = '/:"[0-9-]/';
    private const SHARED = '/[rR]:[0-9]/';
    /** APCu keeps a double as it keeps an integer, in eight bytes. */
    private const DOUBLE = 8;
    /** No string replaces these: APCu stores none of the first, and the second would take too long. */
    private const LEFT = ['unserializable' => true, 'members' => true];

    /** Why a script can't express the last value; nothing if it can. */
    public static string $why = '';
    /** Whether no part of the last array is shared with another one. */
    public static bool $is_plain = false;
    /**
     * Takes plain values and throws at others. With uopz each call of a function is looked up, `is_string` too; this is
     * no call.
     */
    public static string|int|bool|null $plain = null;
    public static string $string = '';
    /** @var array<string, string> why a script can't say objects of a class, or nothing */
    private static array $classes = [];
    /** @var array<int, true> the objects of this value that were met */
    private static array $met = [];
    private static int $members = 0;

    /** The same as `of`; a value that can't be said is counted. */
    public static function told(mixed $value, string $key): ?string
    {
        $text = self::of($value);
        if (self::$why !== '') {
            Script::left(self::$why, $key, $text !== null);
        }
        return $text;
    }

    /** The value's text, or that of a string which stands for it, or null. None of the site's code runs. */
    public static function of(mixed $value): ?string
    {
        self::$why = '';
        if (\is_array($value)) {
            return self::of_array($value);
        }
        try {
            self::$plain = $value;
        } catch (\TypeError) {
            return self::of_all($value);
        }
        if (isset($value[self::SHORT]) && !self::has_memory(\strlen($value))) {
            self::$why = 'memory';
            return null;
        }
        return \serialize($value);
    }

    /** Most arrays have plain members, and no doubtful keys. */
    public static function of_array(array $array): ?string
    {
        self::$why = '';
        try {
            foreach ($array as self::$plain);
        } catch (\TypeError) {
            return self::of_all($array);
        }
        $text = \serialize($array);
        self::$is_plain = \preg_match(self::NUMBER, $text) === 0 && \preg_match(self::SHARED, $text) === 0;
        return self::$is_plain && !isset($text[self::SHORT]) ? $text : self::of_all($array);
    }

    /** A list of the keys that are strings; APCu passes over the others. */
    public static function keys(array $keys): string
    {
        $text = '';
        $count = 0;
        foreach ($keys as $key) {
            if (\is_string($key)) {
                $text .= "i:$count;s:" . \strlen($key) . ":\"$key\";";
                $count++;
            }
        }
        return "a:$count:{{$text}}";
    }

    private static function of_all(mixed $value): ?string
    {
        self::$is_plain = false;
        self::$met = [];
        self::$members = 0;
        self::$why = self::refused($value, 0);
        if (self::$why !== '') {
            return self::of_refused($value);
        }
        try {
            $text = \serialize($value);
        } catch (\Throwable) {
            self::$why = 'unserializable';
            return null;
        }
        self::$is_plain = !\str_contains($text, ';r:') && !\str_contains($text, ';R:');
        self::$met = [];
        if (isset($text[self::SHORT]) && !self::has_memory(\strlen($text))) {
            self::$why = 'memory';
            return null;
        }
        if (\preg_match(self::NUMBER, $text) !== 0 && self::has_number($value)) {
            self::$why = 'key';
            self::$is_plain = false;
            return self::stand_in(\strlen($text));
        }
        return $text;
    }

    private static function of_refused(mixed $value): ?string
    {
        if (\is_float($value)) {
            return self::stand_in(self::DOUBLE);
        }
        if (!\is_array($value) && !\is_object($value)) {
            self::$why = 'unserializable';
        }
        self::$met = [];
        self::$members = 0;
        $length = isset(self::LEFT[self::$why]) ? 0 : self::length($value, 0);
        return isset(self::LEFT[self::$why]) ? null : self::stand_in($length);
    }

    /** A string of this many bytes, which contains nothing of the site's. */
    private static function stand_in(int $length): ?string
    {
        if ($length > self::SHORT && !self::has_memory($length)) {
            self::$why = 'memory';
            return null;
        }
        return "s:$length:\"" . \str_repeat('x', $length) . '";';
    }

    /**
     * How many bytes `serialize` writes of a value, if objects with hooks had none. What is shared by references counts
     * each time.
     */
    private static function length(mixed $value, int $depth): int
    {
        $front = \strlen('a::{}');
        if (\is_object($value)) {
            if ($value instanceof \UnitEnum) {
                return \strlen(\serialize($value));
            }
            self::$classes[$value::class] ??= self::in_class($value);
            $id = \spl_object_id($value);
            if (self::$classes[$value::class] === 'unserializable') {
                self::$why = 'unserializable';
            }
            if (isset(self::$met[$id])) {
                return \strlen('r:10;');
            }
            self::$met[$id] = true;
            $front = 3 + \strlen(\serialize($value::class));
            $value = (array) $value;
        } elseif (!\is_array($value)) {
            return \strlen(\serialize($value));
        }
        $count = \count($value);
        self::$members += $count;
        if (self::$members > self::MEMBERS) {
            self::$why = 'members';
        }
        if (isset(self::LEFT[self::$why]) || $depth > 2 * self::DEPTH) {
            return 0;
        }
        $length = $front + \strlen((string) $count);
        foreach ($value as $key => $member) {
            $length += \strlen(\serialize($key)) + self::length($member, $depth + 1);
        }
        return $length;
    }

    /** Whether an array in the value has a string for a key that spells a number, as APCu's own answers have. */
    private static function has_number(mixed $value): bool
    {
        if (\is_object($value)) {
            $id = \spl_object_id($value);
            if (isset(self::$met[$id])) {
                return false;
            }
            self::$met[$id] = true;
        }
        foreach ((array) $value as $key => $member) {
            $is_number = \is_array($value) && \is_string($key) && $key === (string) (int) $key;
            if ($is_number || (\is_array($member) || \is_object($member)) && self::has_number($member)) {
                return true;
            }
        }
        return false;
    }

    /** Whether a text of this many bytes may be copied several times, and the site still has enough memory. */
    private static function has_memory(int $bytes): bool
    {
        $set = \strtoupper((string) \ini_get('memory_limit'));
        $limit = (int) $set * 1024 ** (int) \strpos(' KMG', \substr(" $set", -1));
        return $limit <= 0 || \memory_get_usage() + 5 * $bytes < $limit;
    }

    /** Why a value in this many arrays and objects can't be expressed, or nothing. */
    private static function refused(mixed $value, int $depth): string
    {
        return match (\gettype($value)) {
            'string', 'integer', 'boolean', 'NULL' => '',
            'array' => self::in_members($value, $depth + 1),
            'object' => self::in_object($value, $depth + 1),
            'double' => 'double',
            default => 'resource',
        };
    }

    private static function in_members(array $members, int $depth): string
    {
        $count = \count($members);
        self::$members += $count;
        if ($depth >= self::DEPTH && ($count > 0 || $depth > self::DEPTH)) {
            return 'depth';
        }
        if (self::$members > self::MEMBERS) {
            return 'members';
        }
        foreach ($members as $value) {
            if (($why = self::refused($value, $depth)) !== '') {
                return $why;
            }
        }
        return '';
    }

    private static function in_object(object $object, int $depth): string
    {
        $why = self::$classes[$object::class] ??= self::in_class($object);
        $id = \spl_object_id($object);
        if ($why !== '' || isset(self::$met[$id])) {
            return $why;
        }
        self::$met[$id] = true;
        return self::in_members((array) $object, $depth);
    }

    /** Code of the site's would run twice if the recorder serialized an object with hooks too. */
    private static function in_class(object $object): string
    {
        return match (true) {
            $object instanceof \UnitEnum => 'enumeration',
            $object instanceof \Closure, (new \ReflectionClass($object))->isAnonymous() => 'unserializable',
            $object instanceof \Serializable,
            \method_exists($object::class, '__serialize'),
            \method_exists($object::class, '__sleep') => 'hooks',
            default => '',
        };
    }
}
