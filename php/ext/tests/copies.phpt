--TEST--
A large value is whole, though others store over it, delete it and clear while it is fetched
--INI--
apc.enabled=1
apc.enable_cli=1
apc.shm_size=16M
error_log=/dev/null
--SKIPIF--
<?php
if (!function_exists('pcntl_fork') || !function_exists('posix_kill')) die('skip pcntl and posix are needed');
require __DIR__ . '/common.inc';
if (!is_ours()) die('skip after a kill APCu may wait for ever');
?>
--FILE--
<?php
require __DIR__ . '/common.inc';

const KEYS = 6;

/** Any value of about so many bytes, each part of it the same letter. */
function made(): array|string
{
    $letter = chr(mt_rand(97, 122));
    $text = str_repeat($letter, mt_rand(0, 3) ? mt_rand(400000, 2000000) : mt_rand(4000, 40000));
    return mt_rand(0, 1) ? $text : [$letter, $text, strlen($text)];
}

function is_whole(mixed $value): bool
{
    if (is_array($value)) {
        [$letter, $text, $length] = $value;
        return strlen($text) === $length && strspn($text, $letter) === $length;
    }
    return $value === false || is_string($value) && strspn($value, $value[0]) === strlen($value);
}

/** Fetches without end, and counts in a file's length what was there. */
function fetch_all(string $count): void
{
    for (;;) {
        $value = apcu_fetch('k' . mt_rand(0, KEYS));
        if (!is_whole($value)) {
            exit(1);
        }
        if ($value !== false) {
            file_put_contents($count, '.', FILE_APPEND);
        }
    }
}

function change_all(): void
{
    for (;;) {
        $key = 'k' . mt_rand(0, KEYS);
        match (mt_rand(0, 9)) {
            0 => apcu_delete($key),
            1 => mt_rand(0, 5) ? null : apcu_clear_cache(),
            default => apcu_store($key, made()),
        };
    }
}

// Three fetch and three change. Some of those that fetch stand still for a moment, most in a copy, and at the end of
// it each of the six may be killed.
$count = tempnam(sys_get_temp_dir(), 'copies');
$started = [];
$begin = function (int $i) use (&$started, $count): void {
    $started[$i] = pcntl_fork();
    if ($started[$i] === 0) {
        mt_srand(getmypid());
        $i < 3 ? fetch_all($count) : change_all();
    }
};
array_map($begin, range(0, 5));
$ended = [];
$fetched = 0;
$end = microtime(true) + 20;
for ($n = 0; $n < 60 || $fetched < 600 && microtime(true) < $end; $n++) {
    clearstatcache();
    $fetched = filesize($count);
    $i = mt_rand(0, 2);
    posix_kill($started[$i], SIGSTOP);
    usleep(mt_rand(5000, 15000));
    posix_kill($started[$i], SIGCONT);
    usleep(mt_rand(1000, 9000));
    if ($n % 10 === 0) {
        $i = mt_rand(0, 5);
        posix_kill($started[$i], SIGKILL);
        $ended[] = end_of($started[$i]);
        $begin($i);
    }
}
foreach ($started as $id) {
    posix_kill($id, SIGKILL);
    $ended[] = end_of($id);
}
unlink($count);
echo implode(',', array_unique($ended)), "\n";

// What the killed ones copied is free again.
apcu_clear_cache();
apcu_store('next', 1);
$row = apcu_sma_info(true);
apcu_clear_cache();
$none = apcu_sma_info(true);
var_dump($none['avail_mem'] - $row['avail_mem'] < 200, apcu_cache_info()['deleted_list'], is_free());
?>
--EXPECT--
signal 9
bool(true)
array(0) {
}
bool(true)
