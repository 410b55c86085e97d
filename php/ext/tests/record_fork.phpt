--TEST--
A record: all processes write one file in the order of events; a process that is killed loses none, and an empty cache is an event
--SKIPIF--
<?php
require __DIR__ . '/common.inc';
if (!is_ours()) die('skip APCu records nothing');
if (!function_exists('pcntl_fork') || !function_exists('posix_kill')) die('skip pcntl and posix are needed');
?>
--FILE--
<?php
require __DIR__ . '/common.inc';
require __DIR__ . '/record.inc';

$so = fn (string $name): string => file_exists($file = PHP_EXTENSION_DIR . "/$name.so") ? "extension=$file" : 'apc.smart=0';
$set = ["apc.record_dir=$folder", 'apc.use_request_time=1', $so('pcntl'), $so('posix')];

echo run_php('apcu_store("p", 1); if (pcntl_fork() === 0) { apcu_inc("p"); posix_kill(getmypid(), SIGKILL); } pcntl_wait($s); apcu_fetch("p");', ...$set);
echo taken_record($folder);

// A process that dies in a call takes the cache with it, and its call is not recorded.
$code = <<<'CODE'
for ($i = 0; $i < 400 && apcu_cache_info(true)['remakes'] === 0; $i++) {
    if (($id = pcntl_fork()) === 0) {
        for ($big = str_repeat('x', 1000000);;) apcu_store('big', $big);
    }
    usleep(2000);
    posix_kill($id, SIGKILL);
    pcntl_waitpid($id, $s);
    apcu_store('alive', $i);
}
CODE;
run_php($code, 'error_log=/dev/null', 'apc.shm_size=8M', 'apc.record_values=0', ...$set);
$text = taken_record($folder);
var_dump(preg_match('/^\d+ recreated\n/m', $text));
preg_match_all('/^\d+(?= )/m', $text, $numbers);
var_dump($numbers[0] === array_map(strval(...), range(0, count($numbers[0]) - 1)));
?>
--EXPECT--
shm-size 33554432
slots 4096
ttl 0
values 1
process 0
time now
0 apcu_store s:1:"p"; i:1;
b:1;
process 1
1 apcu_inc s:1:"p"; i:1;
i:2;b:1;
process 0
2 apcu_fetch s:1:"p";
i:2;b:1;
int(1)
bool(true)
