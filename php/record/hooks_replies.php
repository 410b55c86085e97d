<?php // SPDX-License-Identifier: MIT

// For tests: next to each line of the script, the reply of APCu, as apcu_run prints it. Each call is made from here, so
// a wrong call of a site with strict types may be accepted, and a call inside another one of its name is not seen.
// No strict types: they would reject what a site without them may pass.

namespace ApcuRecord;

foreach (Calls::WORDS as $word) {
    \uopz_set_return($word, static function (mixed ...$args) use ($word): mixed {
        $line = Calls::line($word, $args);
        Script::call($line);
        $answer = $word(...$args);
        ReplyTexts::add($word, $line, $answer);
        return $answer;
    }, true);
}

\uopz_set_return('apcu_fetch', static function (mixed $key, mixed &$success = null): mixed {
    $line = Calls::line('apcu_fetch', [$key]);
    Script::call($line);
    $answer = \apcu_fetch($key, $success);
    ReplyTexts::add('apcu_fetch', $line, $answer, $success);
    return $answer;
}, true);

foreach (['apcu_inc', 'apcu_dec'] as $word) {
    $count = static function (mixed $key, mixed $step = 1, mixed &$success = null, mixed $ttl = 0) use ($word): mixed {
        $line = Calls::line($word, [$key, $step, null, $ttl]);
        Script::call($line);
        $answer = $word($key, $step, $success, $ttl);
        ReplyTexts::add($word, $line, $answer, $success);
        return $answer;
    };
    \uopz_set_return($word, $count, true);
}
