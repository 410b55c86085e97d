<?php // SPDX-License-Identifier: MIT

// Random scripts, and the options to play them with: the same for the same number.
// php scripts.php SEED prints one, and its options on standard error.

declare(strict_types=1);

namespace ApcuVerify;

const SETTINGS = [
    // rows find hardly any room, and all go ever so often
    '--shm-size 4096 --slots 32',
    '--shm-size 8192 --slots 16 --ttl 2 --use-request-time 1',
    '--shm-size 4096 --slots 32 --segments 3',
    // large arrays, which others delete and replace while they are copied
    '--shm-size 256K --slots 128',
    '--shm-size 1M --slots 64 --ttl 3',
];

/** @return array{string, string} options and input */
function random_scripts(int $seed): array
{
    mt_srand($seed);
    $kind = $seed % count(SETTINGS);
    $is_crowd = $kind >= 3;
    $workers = mt_rand(0, 2) === 0 ? mt_rand(1, 64) : mt_rand(1, 8);
    $calls = mt_rand(1, intdiv($is_crowd ? 300 : 400, $workers) + 1);
    $text = '';
    for ($worker = 0; $worker < $workers; $worker++) {
        $text .= "worker\n" . ($is_crowd && $worker < 2 ? 'apcu_store s:5:"large"; ' . large() . "\n" : '');
        $second = 0;
        for ($call = 0; $call < $calls; $call++) {
            if (mt_rand(0, 15) === 0) {
                $second += mt_rand(0, 4);
                $text .= ['time', 'request'][mt_rand(0, 1)] . " i:$second;\n";
            }
            $text .= ($is_crowd && mt_rand(0, 2) > 0 ? crowded(mt_rand(0, 11)) : call(mt_rand(0, 25))) . "\n";
        }
    }
    return [SETTINGS[$kind], $text];
}

/** A call on one of few large arrays. */
function crowded(int $kind): string
{
    $key = 's:5:"large";';
    $other = 's:5:"other";';
    return match (true) {
        $kind < 5 => "apcu_fetch $key",
        $kind < 6 => "apcu_fetch a:2:{i:0;{$key}i:1;$other}",
        $kind < 7 => "apcu_store $key " . large(),
        $kind < 8 => "apcu_store $other " . large() . ttl(),
        $kind < 9 => "apcu_delete $key\nAPCUIterator N; a:1:{i:0;s:3:\"key\";} i:100; s:7:\"deleted\";",
        $kind < 10 => "apcu_store $key " . large() . "\nAPCUIterator_totals N; s:7:\"deleted\";",
        $kind < 11 => "apcu_inc s:1:\"n\"; i:2;",
        default => "apcu_add $key " . large(),
    };
}

/** Any call on few keys. The counter `n` has no time limit. */
function call(int $kind): string
{
    return match (true) {
        $kind < 5 => 'apcu_store ' . key_text() . ' ' . value() . ttl(),
        $kind < 10 => 'apcu_fetch ' . key_text(),
        $kind === 10 => 'apcu_fetch ' . keys(),
        $kind === 11 => 'apcu_add ' . key_text() . ' ' . value() . ttl(),
        $kind === 12 => 'apcu_store ' . pairs() . ' N;' . ttl(),
        $kind < 15 => 'apcu_delete ' . key_text(),
        $kind === 15 => 'apcu_delete ' . keys(),
        $kind === 16 => 'apcu_exists ' . (mt_rand(0, 1) === 1 ? key_text() : keys()),
        $kind === 17 => 'apcu_dec ' . key_text() . ' i:' . mt_rand(-9, 9) . ';' . ttl(),
        $kind === 18 => 'apcu_cas ' . key_text() . ' i:' . mt_rand(0, 3) . '; i:' . mt_rand(0, 3) . ';',
        $kind === 19 => 'apcu_entry ' . key_text() . ' (apcu_entry ' . key_text() . ' (' . value() . '))' . ttl(),
        $kind === 20 => ['apcu_clear_cache', 'apcu_enabled', 'apcu_enabled'][mt_rand(0, 2)],
        $kind === 21 => 'apcu_key_info ' . key_text(),
        $kind === 22 => ['apcu_cache_info b:0;', 'apcu_sma_info b:0;', 'apcu_cache_info b:1;'][mt_rand(0, 2)],
        $kind === 23 => iterator(),
        default => 'apcu_inc s:1:"n"; i:' . mt_rand(1, 9) . ';',
    };
}

function iterator(): string
{
    $search = ['N;', 's:4:"/k1/";', 's:10:"/^K[0-4]/i";'][mt_rand(0, 2)];
    $list = ['s:6:"active";', 's:7:"deleted";'][mt_rand(0, 1)];
    return [
        "APCUIterator $search",
        "APCUIterator $search a:2:{i:0;s:3:\"key\";i:1;s:5:\"value\";} i:" . mt_rand(1, 4) . "; $list",
        "APCUIterator_delete $search",
        "APCUIterator_totals $search $list",
    ][mt_rand(0, 3)];
}

function key_text(): string
{
    return 's:2:"k' . mt_rand(0, 9) . '";';
}

function keys(): string
{
    return members(fn (int $at): string => "i:$at;" . key_text());
}

function pairs(): string
{
    $first = mt_rand(0, 6);
    return members(fn (int $at): string => 's:2:"k' . ($first + $at) . '";' . own_value());
}

function members(callable $member): string
{
    $count = mt_rand(0, 3);
    return "a:$count:{" . implode('', array_map($member, $count > 0 ? range(0, $count - 1) : [])) . '}';
}

/** A value; at times one that has a reference to itself. */
function value(): string
{
    return mt_rand(0, 8) === 0 ? 'a:2:{i:0;s:3:"one";i:1;R:1;}' : own_value();
}

/** A value that names no other one; at times a string that has in it what a journal begins with. */
function own_value(): string
{
    return match (mt_rand(0, 7)) {
        0 => 'N;',
        1 => 'b:1;',
        2, 3 => 'i:' . mt_rand(0, 3) . ';',
        4 => serialize("\njournal\n0\n"),
        5 => serialize("\njournal\n"),
        default => serialize(str_repeat('z', mt_rand(0, 1500))),
    };
}

/** An array of which a copy takes some microseconds. */
function large(): string
{
    return serialize(range(1, mt_rand(100, 800)));
}

function ttl(): string
{
    return mt_rand(0, 2) === 0 ? ' i:' . mt_rand(0, 5) . ';' : '';
}

if (realpath($_SERVER['SCRIPT_FILENAME']) === __FILE__) {
    [$options, $text] = random_scripts((int) ($argv[1] ?? 1));
    fwrite(STDERR, "$options\n");
    echo $text;
}
