<?php // SPDX-License-Identifier: MIT

// Calls of APCu as sites make them, wrong ones among them, and what each answers, throws or warns of. With the recorder
// and without it this prints the same.

class Plain
{
    public $public = 1;
    protected $protected = ['x' => null];
    private $private = 'p';
}

class Sleeper
{
    public static int $slept = 0;
    public $kept = 1;

    public function __sleep(): array
    {
        self::$slept++;
        return ['kept'];
    }
}

class Told
{
    public static int $told = 0;

    public function __serialize(): array
    {
        self::$told++;
        return [1, 2];
    }

    public function __unserialize(array $data): void
    {
    }
}

class Spelled
{
    public static int $spelled = 0;

    public function __toString(): string
    {
        self::$spelled++;
        return 'spelled';
    }
}

class OwnIterator extends APCUIterator
{
    public function __construct()
    {
        parent::__construct('/^m/', APC_ITER_KEY);
    }
}

enum Suit
{
    case Hearts;
}

function shown(callable $call): void
{
    static $count = 0;
    try {
        $answer = $call();
        $text = is_object($answer) ? get_class($answer) : serialize($answer);
    } catch (Throwable $thrown) {
        $text = get_class($thrown) . ': ' . $thrown->getMessage();
    }
    echo ++$count, ' ', str_replace(["\n", "\0"], ['\n', '\0'], $text), "\n";
}

function keys_of(iterable $rows): array
{
    $keys = [];
    foreach ($rows as $key => $row) {
        $keys[] = $key;
    }
    sort($keys);
    return $keys;
}

set_error_handler(function (int $level, string $message): bool {
    echo "  warned: $message\n";
    return true;
});

$shared = new stdClass();
$shared->n = 1;
$cycle = new stdClass();
$cycle->self = $cycle;
$deep = null;
for ($i = 0; $i < 511; $i++) {
    $deep = [$deep];
}
$deeper = [$deep];
$ring = [1];
$ring[1] = &$ring;
$one = 1;
$stream = fopen('php://memory', 'r');
$sleeper = new Sleeper();
$told = new Told();

foreach ([
    null, true, false, 0, -1, PHP_INT_MAX, PHP_INT_MIN, 1.5, '', "a\n\0\"b", "\xff", [], [1, 'x' => [2, null]],
    ['-0' => 1, '007' => 2, PHP_INT_MIN => 3], [1.0], new Plain(), (object) ['5' => 1, '' => 2], $cycle, $deep, $deeper,
    [&$one, &$one], [$shared, $shared], $sleeper, [$told], Suit::Hearts, [Suit::Hearts], fn () => 1, [fn () => 1],
    new class {
    }, unserialize('O:7:"Unknown":1:{s:1:"x";i:1;}'), [['a"5";' => 1]], $stream, [$stream], new ArrayObject([1]),
    new DateTimeImmutable('2020-01-01'), str_repeat('long', 500_000),
] as $value) {
    shown(fn () => apcu_store('value', $value));
    shown(fn () => apcu_fetch('value'));
    shown(fn () => apcu_add('value', $value));
    shown(fn () => apcu_delete('value'));
}
shown(fn () => apcu_store('ring', $ring));
apcu_clear_cache();

shown(fn () => apcu_store(['m1' => 1, 'm2' => 2.5, 5 => 'five', '' => null]));
shown(fn () => apcu_store(['m3' => $shared, 'm4' => $shared], null, 100));
shown(fn () => apcu_add(['m1' => 1, 'm5' => [1.5], 'm6' => 'six'], 7));
shown(fn () => apcu_store([]));
shown(fn () => apcu_fetch(['m1', 'm2', 'm3', 'm4', 5, '5', 'm1', null, '']));
shown(fn () => apcu_exists(['m1', 'm2', 5, '5', 'gone']));
shown(fn () => apcu_delete(['m2', 5, 'gone']));
shown(fn () => apcu_store('odd', apcu_fetch(['5', 'm1'])));
shown(fn () => apcu_store(apcu_fetch(['5', 'm1'])));
shown(fn () => apcu_fetch(5));
shown(fn () => apcu_fetch(null));
shown(fn () => apcu_exists(5.0));
shown(fn () => apcu_fetch(new Spelled()));
shown(fn () => apcu_store(5, 1));
shown(fn () => apcu_store('alone'));
shown(fn () => apcu_store('t', 1, -1));
shown(fn () => apcu_store('t', 1, '10'));
shown(fn () => apcu_store('t', 1, 'ten'));
shown(fn () => apcu_store('t', ttl: 10, value: 3));
shown(fn () => apcu_delete(5));
shown(fn () => apcu_store());
shown(fn () => apcu_fetch());

$found = 'x';
shown(fn () => [apcu_fetch('m1', $found), $found]);
shown(function () {
    $list = [];
    apcu_fetch('gone', $list['found']);
    return $list;
});
shown(fn () => [apcu_fetch(success: $by_name, key: 'm1'), $by_name]);
shown(fn () => [apcu_inc('count', 5, $counted, 60), $counted]);
shown(fn () => [apcu_inc('count', ttl: 5, success: $counted), $counted]);
shown(fn () => [apcu_dec('count', -3), apcu_dec('m6', 1, $counted), $counted]);
shown(fn () => apcu_inc('count', '2'));
shown(fn () => apcu_inc('count', 'two'));
shown(fn () => apcu_inc([]));
shown(fn () => [apcu_cas('count', 13, 4), apcu_cas('count', 4, 5), apcu_cas('gone', 1, 2)]);
shown(fn () => call_user_func('apcu_fetch', 'm1'));
shown(fn () => array_map('apcu_exists', ['m1', 'gone']));
shown(fn () => (new ReflectionFunction('apcu_fetch'))->invoke('m1'));
shown(fn () => apcu_fetch(...)('m1'));

shown(fn () => apcu_entry('entry', fn ($key) => "made for $key", 10));
shown(fn () => apcu_entry('entry', fn ($key) => 'not made'));
shown(fn () => apcu_entry('thrown', fn () => throw new DomainException('from the generator')));
shown(fn () => apcu_entry('outer', fn () => apcu_entry('inner', fn () => 7) + 1));
shown(fn () => apcu_entry('busy', function () {
    apcu_store('inside', 1);
    return apcu_fetch('inside') + 1.5;
}));
shown(fn () => apcu_entry(5, fn ($key) => $key, '10'));
shown(fn () => apcu_entry(callback: fn ($key) => 3, key: 'named'));
shown(fn () => apcu_entry('wrong', 'no such function'));
shown(fn () => apcu_entry('wrong'));
shown(fn () => apcu_fetch(['entry', 'thrown', 'outer', 'inner', 'busy', 'named', 'wrong']));

shown(fn () => array_keys(apcu_key_info('m1')));
shown(fn () => apcu_key_info('gone'));
shown(fn () => count(apcu_cache_info()) - count(apcu_cache_info(true)));
shown(fn () => apcu_sma_info(limited: true)['num_seg']);
shown(fn () => keys_of(new APCUIterator('/^m[0-9]$/')));
shown(fn () => keys_of(new APCUIterator(null, APC_ITER_KEY | APC_ITER_TYPE, 2)));
shown(fn () => keys_of(new APCUIterator('#^M#i', APC_ITER_KEY)));
shown(fn () => keys_of(new APCUIterator('/^(.)\1/')));
shown(fn () => keys_of(new APCUIterator(['m1', 'gone'])));
shown(fn () => keys_of(new OwnIterator()));
shown(fn () => new APCUIterator('/^m/'));
shown(fn () => (new APCUIterator('/^m/'))->getTotalCount());
shown(function () {
    $rows = new APCUIterator('/^m/');
    return [$rows->getTotalHits() >= 0, $rows->getTotalSize() > 0, apcu_delete($rows), apcu_exists(['m1', 'm6'])];
});
shown(fn () => apcu_delete(new APCUIterator('/^e/')));
shown(fn () => apcu_delete(new OwnIterator()));
shown(fn () => [apcu_enabled(), apcu_clear_cache(), apcu_clear_cache(...)()]);
shown(fn () => [Sleeper::$slept, Told::$told, Spelled::$spelled]);

register_shutdown_function(function () {
    apcu_store('late', 1);
    echo "late\n";
});
final class Last
{
    public function __destruct()
    {
        apcu_store('last', apcu_fetch('late'));
        echo "last\n";
    }
}
$last = new Last();
if (function_exists('pcntl_fork')) {
    apcu_store('before', 1);
    if (pcntl_fork() === 0) {
        apcu_store('child', 1);
        exit(0);
    }
    pcntl_wait($status);
    echo "child ended with $status\n";
}
echo error_get_last() === null ? "no error\n" : "an error\n";
exit(3);
