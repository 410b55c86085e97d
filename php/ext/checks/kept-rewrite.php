<?php // SPDX-License-Identifier: MIT

// Rewrites the tests of PHP in a folder, so that their arrays come from the cache: php kept-rewrite.php FOLDER
// An array that is assigned to a variable, or passed to a function, is an argument of kept_value (kept-prepend.php). No
// line is added. What has to be constant is left alone: defaults of parameters and properties, constants, attributes.
// Prints the tests that it rewrote, one a line, and to the standard error how many arrays.

declare(strict_types=1);

/** The index after the bracket that belongs to the one at this index. */
function behind(array $tokens, int $at): int
{
    $depth = 0;
    for (; $at < count($tokens); $at++) {
        $text = $tokens[$at]->text;
        $depth += in_array($text, ['(', '[', '{', '${', '{$'], true) ? 1 : (in_array($text, [')', ']', '}'], true) ? -1 : 0);
        if ($depth === 0) {
            return $at + 1;
        }
    }
    return $at;
}

function rewrite(string $code, int &$count): string
{
    $tokens = array_values(PhpToken::tokenize($code));
    $words = array_values(array_filter(array_keys($tokens), fn (int $i): bool => !$tokens[$i]->isIgnorable()));
    $inserts = [];
    $is_declared = false;
    foreach ($words as $n => $i) {
        $token = $tokens[$i];
        if (in_array($token->text, [';', '{', '}'], true)) {
            $is_declared = false;
        } elseif (in_array($token->id, [T_FUNCTION, T_FN, T_CONST, T_STATIC, T_ATTRIBUTE, T_CLASS, T_CASE, T_DECLARE], true)) {
            $is_declared = true;
        }
        if ($is_declared || $token->text !== '[' && $token->id !== T_ARRAY || $n < 2) {
            continue;
        }
        $is_array = $token->is(T_ARRAY);
        if ($is_array && !(isset($words[$n + 1]) && $tokens[$words[$n + 1]]->is('('))) {
            continue;
        }
        $before = fn (int $back): ?PhpToken => isset($words[$n - $back]) ? $tokens[$words[$n - $back]] : null;
        $is_start = !$before(3) || $before(3)->is([';', '{', '}']);
        $is_assigned = $is_start && $before(1)->is('=') && $before(2)->is(T_VARIABLE);
        $is_passed = ($is_start || $before(3)->is(['=', '(', T_ECHO, T_RETURN])) && $before(1)->is('(') && $before(2)->is(T_STRING);
        if (!$is_assigned && !$is_passed) {
            continue;
        }
        $end = behind($tokens, $is_array ? $words[$n + 1] : $i);
        $next = $end;
        while (isset($tokens[$next]) && $tokens[$next]->isIgnorable()) {
            $next++;
        }
        if (!($tokens[$next] ?? null)?->is($is_assigned ? [';'] : [')', ','])) {
            continue;
        }
        $part = array_slice($tokens, $i, $end - $i);
        foreach ($part as $inner) {
            if ($inner->is([T_AMPERSAND_FOLLOWED_BY_VAR_OR_VARARG, T_AMPERSAND_NOT_FOLLOWED_BY_VAR_OR_VARARG, T_YIELD, T_FUNCTION, T_FN, T_INLINE_HTML])) {
                continue 2;
            }
        }
        $inserts[$i] = '\\kept_value(';
        $inserts[$end - 1] = ($inserts[$end - 1] ?? '') . ')';
        $count++;
    }
    $out = '';
    foreach ($tokens as $i => $token) {
        $insert = $inserts[$i] ?? '';
        $out .= str_starts_with($insert, '\\') ? $insert . $token->text . substr($insert, strlen('\\kept_value(')) : $token->text . $insert;
    }
    return $out;
}

$all = 0;
$files = new RecursiveIteratorIterator(new RecursiveDirectoryIterator($argv[1], FilesystemIterator::SKIP_DOTS));
foreach (new RegexIterator($files, '/\.phpt$/') as $file) {
    $text = file_get_contents((string) $file);
    $count = 0;
    $at = strpos($text, "\n--FILE--\n");
    $end = $at === false ? false : strpos($text, "\n--EXPECT", $at);
    if ($end !== false) {
        $at += strlen("\n--FILE--\n");
        $code = substr($text, $at, $end - $at);
        $text = substr_replace($text, rewrite($code, $count), $at, strlen($code));
    }
    if ($count > 0) {
        file_put_contents((string) $file, $text);
        echo $file, "\n";
        $all += $count;
    }
}
fwrite(STDERR, "$all\n");
