<?php // SPDX-License-Identifier: MIT

declare(strict_types=1);

namespace ApcuRecord;

/** A search of an iterator in the syntax of scripts, which is not quite that of PCRE. */
final class Pattern
{
    private const LONGEST = 1_000;
    /** A sign with a backslash, or one that stands for itself. */
    private const SIGN = '\\\\[^A-Za-z0-9\s]|[A-Za-z0-9 _:;,=!<>@%"\'`\~&#\/-]';
    private const CLASS_SIGN = '\\\\[^A-Za-z0-9\s]|[A-Za-z0-9 _:;,=!<>@%"\'`\~&#\/.$*+?(){}|]';
    private const COUNT = '\{[0-9]{1,2}(?:,[0-9]{0,2})?\}(?![?+*])';

    /** Null if there is no such pattern, or if it may have another meaning. */
    public static function of(mixed $search): ?string
    {
        if ($search === null || $search === '') {
            return 'N;';
        }
        // Bytes that are no ASCII mean letters in a script, and bytes in PCRE.
        $is_simple = \is_string($search) && \strlen($search) < self::LONGEST
            && \preg_match('/^([\/#~!@%])([\x20-\x7e]*)\1([iuD]*)$/D', $search, $parts) === 1;
        if (!$is_simple || !self::is_taken($search)) {
            return null;
        }
        $text = self::rewritten($parts[2]);
        return $text === null ? null : \serialize("/$text/" . (\str_contains($parts[3], 'i') ? 'i' : ''));
    }

    /** Whether PCRE reads the pattern. */
    private static function is_taken(string $search): bool
    {
        \set_error_handler(static fn (): bool => true);
        try {
            return \preg_match($search, '') !== false;
        } finally {
            \restore_error_handler();
        }
    }

    private static function rewritten(string $pattern): ?string
    {
        [$sign, $class, $count] = [self::SIGN, self::class_form(), self::COUNT];
        $forms = "~\G(?:(?<sign>$sign)(?<times>$count)?|(?<class>$class)(?<often>$count)?"
            . '|(?<same>\\\\[dws]|\((?:\?:)?(?![?*])|\)|\||[*+?]\??(?![*+?])|[\^$.]))~i';
        $text = '';
        for ($at = 0; $at < \strlen($pattern); $at += \strlen($found[0])) {
            if (\preg_match($forms, $pattern, $found, \PREG_UNMATCHED_AS_NULL, $at) !== 1) {
                return null;
            }
            $text .= self::piece($found);
        }
        return $text;
    }

    private static function piece(array $found): string
    {
        return match (true) {
            isset($found['sign']) => self::sign($found['sign']) . ($found['times'] ?? ''),
            isset($found['class']) => self::character_class($found['class']) . ($found['often'] ?? ''),
            default => $found['same'],
        };
    }

    private static function class_form(): string
    {
        return '\[\^?(?:\\\\[dws]|' . self::CLASS_SIGN . '|-)+\]';
    }

    private static function character_class(string $class): string
    {
        $is_negated = $class[1] === '^';
        $sign = self::CLASS_SIGN;
        $forms = "~(?<same>\\\\[dws])|(?<low>$sign)-(?<high>$sign)|(?<sign>$sign|-)~i";
        $flags = \PREG_SET_ORDER | \PREG_UNMATCHED_AS_NULL;
        \preg_match_all($forms, \substr($class, $is_negated ? 2 : 1, -1), $members, $flags);
        $text = '';
        foreach ($members as $member) {
            $text .= match (true) {
                isset($member['same']) => $member['same'],
                isset($member['low']) => self::sign($member['low']) . '-' . self::sign($member['high']),
                default => self::sign($member['sign']),
            };
        }
        return $is_negated ? "[^$text]" : "[$text]";
    }

    /** A literal character, with a backslash if scripts need one. */
    private static function sign(string $sign): string
    {
        $sign = $sign[0] === '\\' ? $sign[1] : $sign;
        return \str_contains('\\.+*?()|[]{}^$#&-~', $sign) ? "\\$sign" : $sign;
    }
}
