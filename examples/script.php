<?php // SPDX-License-Identifier: MIT

// Prints a script whose arguments PHP's own serialize has written:
//
//     php examples/script.php > my.apcu

function call(string $word, mixed ...$arguments): string
{
    return implode(' ', [$word, ...array_map('serialize', $arguments)]) . "\n";
}

// The generator's value is in parentheses.
function entry(string $key, mixed $value, int $ttl = 0): string
{
    return 'apcu_entry ' . serialize($key) . ' (' . serialize($value) . ') ' . serialize($ttl) . "\n";
}

echo "worker\n";
echo call('apcu_store', 'user:1', ['name' => 'Jörg'], 60);
echo call('apcu_fetch', ['user:1', 'user:2']);
echo entry('greeting', "Grüß Gott\n", 60);
