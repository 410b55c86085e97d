<?php // SPDX-License-Identifier: MIT

// No strict types: they would turn back what a site without them may hand over.

namespace ApcuRecord;

\uopz_set_hook('apcu_entry', static function (mixed $key = null): void {
    Entries::seen($key);
});
\uopz_set_return('apcu_entry', static function (mixed ...$args): mixed {
    $second = Script::now();
    Entries::begin();
    try {
        $answer = \apcu_entry(...$args);
    } catch (\Throwable $thrown) {
        Entries::threw($args, $second);
        throw $thrown;
    }
    Entries::gave($args, $answer, $second);
    return $answer;
}, true);
