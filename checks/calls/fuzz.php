<?php // SPDX-License-Identifier: MIT
// Random calls on few keys: php fuzz.php moment|seconds|workers SEED COUNT script|printed
// prints a script of COUNT calls, or plays them on PHP's APCu and prints what apcu_run has to print of their replies.
// With `seconds` some lines set the time, for which this waits as long, and the calls are left out whose reply by PHP
// differs once a row has expired. Of four `workers` each makes COUNT calls, of one event each; they are played
// one by one in the order of the journal on standard input.

function key_of_row(): string
{
    $keys = ['a', 'b', 'c', 'A', '7', '-3', '00', '-0', '', 'a b', "x\xff\0y", (string) PHP_INT_MAX, '9223372036854775808'];
    return $keys[mt_rand(0, count($keys) - 1)];
}

function keys(): array
{
    $keys = [];
    for ($i = mt_rand(0, 4); $i > 0; $i--) {
        $keys[] = key_of_row();
    }
    return $keys;
}

function ttl(): int
{
    return [0, 0, 1, 2, 3, 1000][mt_rand(0, 5)];
}

// Null, a boolean, an integer or a string, at times a long one, so that workers meet while they copy.
function scalar()
{
    $long = str_repeat('yz', 5000);
    $all = [null, true, false, 0, 1, 5, 7, -1, PHP_INT_MAX, PHP_INT_MIN, '', 'abc', 'i:5;', 'x"y', "\xff\0", $long];
    return $all[mt_rand(0, count($all) - 1)];
}

// A value of at most this many levels. Objects that were made before may be shared, and members of an array that hold
// no object may be references to one another.
function value(int $levels, array &$made)
{
    switch ($levels > 0 ? mt_rand(0, 9) : 0) {
        case 7:
            $object = new stdClass();
            $made[] = $object;
            for ($i = mt_rand(0, 3); $i > 0; $i--) {
                $object->{'p' . $i} = value($levels - 1, $made);
            }
            return $object;
        case 8:
            return $made === [] ? null : $made[mt_rand(0, count($made) - 1)];
        case 9:
            $array = [];
            for ($i = mt_rand(0, 4); $i > 0; $i--) {
                $array[[0, 1, -5, 'x', '', '01'][mt_rand(0, 5)]] = value($levels - 1, $made);
            }
            foreach (array_keys($array) as $key) {
                if (mt_rand(0, 3) === 0 && !is_object($array[$key])) {
                    $array["same$key"] = &$array[$key];
                }
            }
            return $array;
        default:
            return scalar();
    }
}

// A pattern of an iterator, or none.
function pattern()
{
    return [null, '/^a/', '/^a$/i', '/[0-9]/', '/k/'][mt_rand(0, 4)];
}

// In an array of PHP a key is an integer if it is the decimal of one.
function with_integer_keys($answer)
{
    if (!is_array($answer)) {
        return $answer;
    }
    $all = [];
    foreach ($answer as $key => $value) {
        $all[$key] = $value;
    }
    return $all;
}

// A generator of at most this many levels: its text, and its value.
function generator(int $levels): array
{
    if ($levels === 0 || mt_rand(0, 1) === 0) {
        $made = [];
        $value = value(3, $made);
        return ['(' . serialize($value) . ')', fn () => $value];
    }
    [$text, $give] = entry($levels);
    return ["($text)", $give];
}

// An entry of at most this many levels: its text, and its value.
function entry(int $levels): array
{
    [$key, $ttl] = [key_of_row(), ttl()];
    [$text, $give] = generator($levels - 1);
    return ['apcu_entry ' . serialize($key) . " $text i:$ttl;", fn () => apcu_entry($key, fn () => $give(), $ttl)];
}

function ask_entry(): array
{
    [$text, $give] = entry(3);
    return [$text, fn () => serialize($give())];
}

function store(string $word, bool $many): array
{
    $ttl = ttl();
    if (!$many || mt_rand(0, 3) > 0) {
        $made = [];
        [$key, $value] = [key_of_row(), value(3, $made)];
        $line = "$word " . serialize($key) . ' ' . serialize($value) . " i:$ttl;";
        return [$line, fn () => serialize($word($key, $value, $ttl))];
    }
    $values = [];
    for ($i = mt_rand(0, 4); $i > 0; $i--) {
        $values[key_of_row()] = scalar();
    }
    return ["$word " . serialize($values) . " N; i:$ttl;", fn () => serialize($word($values, null, $ttl))];
}

// A call on a key, or on several if the call allows it.
function ask(string $word, bool $many): array
{
    $keys = !$many || mt_rand(0, 2) > 0 ? key_of_row() : keys();
    $play = function () use ($word, $keys) {
        if ($word === 'apcu_fetch') {
            $answer = apcu_fetch($keys, $success);
            return serialize(is_array($keys) ? with_integer_keys($answer) : $answer) . serialize($success);
        }
        $answer = $word($keys);
        return serialize($word === 'apcu_exists' ? with_integer_keys($answer) : $answer);
    };
    return ["$word " . serialize($keys), $play];
}

function count_by(string $word): array
{
    [$key, $ttl] = [key_of_row(), ttl()];
    $step = [0, 1, 2, -1, 10, PHP_INT_MAX][mt_rand(0, 5)];
    $play = function () use ($word, $key, $step, $ttl) {
        $answer = $word($key, $step, $success, $ttl);
        return serialize($answer) . serialize($success);
    };
    return ["$word " . serialize($key) . " i:$step; i:$ttl;", $play];
}

function swap(): array
{
    [$key, $expect, $set] = [key_of_row(), mt_rand(-1, 7), mt_rand(0, 5)];
    $line = 'apcu_cas ' . serialize($key) . " i:$expect; i:$set;";
    return [$line, fn () => serialize(apcu_cas($key, $expect, $set))];
}

// Information about a row; all moments are 0.
function key_info(): array
{
    $key = key_of_row();
    $play = function () use ($key) {
        $told = apcu_key_info($key);
        $moments = ['access_time' => 0, 'mtime' => 0, 'creation_time' => 0, 'deletion_time' => 0];
        return serialize($told === null ? null : ['hits' => $told['hits'], ...$moments, 'ttl' => $told['ttl']]);
    };
    return ['apcu_key_info ' . serialize($key), $play];
}

// Information about the cache, without its size.
function cache_info(): array
{
    $play = function () {
        $all = apcu_cache_info(true);
        $told = ['num_slots' => 4096, 'ttl' => (int) ini_get('apc.ttl')];
        foreach (['num_hits', 'num_misses', 'num_inserts', 'num_entries', 'expunges'] as $name) {
            $told[$name] = (int) $all[$name];
        }
        return serialize([...$told, 'mem_size' => 0]);
    };
    return ['apcu_cache_info b:1;', $play];
}

// How many rows an iterator finds, and their hits, without their size.
function totals(): array
{
    $pattern = pattern();
    $play = function () use ($pattern) {
        $rows = new APCUIterator($pattern);
        return serialize(['count' => $rows->getTotalCount(), 'hits' => $rows->getTotalHits(), 'size' => 0]);
    };
    return ['APCUIterator_totals ' . serialize($pattern), $play];
}

// The place in which a cache of 4096 slots comes to a key. No two of the keys have the same.
function slot(string $key): int
{
    $slot = 5381 % 4096;
    for ($i = 0; $i < strlen($key); $i++) {
        $slot = ($slot * 33 + ord($key[$i])) % 4096;
    }
    return $slot;
}

function iterate(): array
{
    $pattern = pattern();
    $play = function () use ($pattern) {
        $rows = [];
        foreach (new APCUIterator($pattern, APC_ITER_KEY | APC_ITER_VALUE | APC_ITER_NUM_HITS) as $row) {
            $told = ['key' => $row['key'], 'value' => $row['value'], 'num_hits' => $row['num_hits']];
            $rows[slot($row['key'])] = $told;
        }
        ksort($rows);
        return serialize(array_values($rows));
    };
    return ['APCUIterator ' . serialize($pattern) . ' ' . serialize(['key', 'value', 'num_hits']), $play];
}

function iterator_delete(): array
{
    $pattern = pattern();
    $play = fn () => serialize(apcu_delete(new APCUIterator($pattern, APC_ITER_KEY)));
    return ['APCUIterator_delete ' . serialize($pattern), $play];
}

// A line of a script, and what plays it.
function call(string $how): array
{
    $kind = mt_rand(0, 99);
    if ($how === 'seconds' && $kind >= 88) {
        $kind -= 88;
    }
    if ($how === 'workers' && $kind >= 97) {
        $kind -= 97;
    }
    $many = $how !== 'workers';
    return match (true) {
        $kind < 22 => store('apcu_store', $many),
        $kind < 32 => store('apcu_add', $many),
        $kind < 52 => ask('apcu_fetch', $many),
        $kind < 60 => ask('apcu_exists', $many),
        $kind < 68 => count_by('apcu_inc'),
        $kind < 72 => count_by('apcu_dec'),
        $kind < 78 => swap(),
        $kind < 84 => ask_entry(),
        $kind < 85 => ['apcu_clear_cache', fn () => serialize(apcu_clear_cache())],
        $kind < 86 => $many ? iterator_delete() : cache_info(),
        $kind < 87 => $many ? totals() : key_info(),
        $kind < 88 => $many ? iterate() : key_info(),
        $kind < 93 => ask('apcu_delete', $many),
        $kind < 97 => key_info(),
        default => cache_info(),
    };
}

// Waits until this many seconds of the clock that APCu reads have begun since the first one.
function wait_until(int $seconds): void
{
    static $first = null;
    $first ??= intdiv(hrtime(true), 1_000_000_000) + 1;
    while (intdiv(hrtime(true), 1_000_000_000) < $first + $seconds) {
        usleep(500);
    }
}

// The calls of one worker, with its lines or its replies.
function play_one(string $how, int $count, string $what): void
{
    if ($what === 'script') {
        echo "worker\n";
    } elseif ($how === 'seconds') {
        wait_until(0);
    }
    $now = 0;
    for ($i = 0; $i < $count; $i++) {
        if ($how === 'seconds' && $i % 40 === 39) {
            $now += mt_rand(1, 2);
            if ($what === 'script') {
                echo "time i:$now;\n";
            } else {
                wait_until($now);
            }
        }
        [$line, $play] = call($how);
        echo $what === 'script' ? $line : $play(), "\n";
    }
}

// The calls of four workers. Each line of the journal is the next event of the worker that it names.
function play_four(int $count, string $what): void
{
    $calls = [];
    for ($worker = 0; $worker < 4; $worker++) {
        for ($i = 0; $i < $count; $i++) {
            $calls[$worker][] = call('workers');
        }
    }
    if ($what === 'script') {
        foreach ($calls as $own) {
            echo "worker\n", implode("\n", array_column($own, 0)), "\n";
        }
        return;
    }
    $replies = [[], [], [], []];
    while (($event = fgets(STDIN)) !== false) {
        $worker = (int) $event;
        $made = count($replies[$worker]);
        // The last event of a worker is its end.
        if ($made < $count) {
            $replies[$worker][] = $calls[$worker][$made][1]();
        }
    }
    foreach ($replies as $worker => $own) {
        echo "worker $worker\n", implode("\n", $own), "\n";
    }
}

[, $how, $seed, $count, $what] = $argv;
mt_srand((int) $seed);
if ($how === 'workers') {
    play_four((int) $count, $what);
} else {
    play_one($how, (int) $count, $what);
}
