--TEST--
A record has the rows of apc.preload_path, and what a process did before it ran another program
--SKIPIF--
<?php
require __DIR__ . '/common.inc';
if (!is_ours()) die('skip APCu records nothing');
if (!function_exists('pcntl_fork') || !is_executable('/bin/true')) die('skip pcntl and /bin/true are needed');
?>
--FILE--
<?php
require __DIR__ . '/common.inc';
require __DIR__ . '/record.inc';

$so = file_exists($file = PHP_EXTENSION_DIR . '/pcntl.so') ? "extension=$file" : 'apc.smart=0';
$set = ["apc.record_dir=$folder", 'apc.use_request_time=1', $so];
mkdir("$folder.preload");
file_put_contents("$folder.preload/a.data", serialize(5));
file_put_contents("$folder.preload/b.data", serialize([1]));

echo run_php('if (pcntl_fork() === 0) { apcu_fetch("a"); exit; } pcntl_wait($s); apcu_fetch("b");', "apc.preload_path=$folder.preload", ...$set);
// The server started at a second of its own.
echo preg_replace('/^time .*\n/m', '', taken_record($folder));

run_php('apcu_store("a", 1); pcntl_exec("/nowhere"); apcu_store("a", 2); pcntl_exec("/bin/true");', 'error_reporting=0', ...$set);
echo "exec\n", taken_record($folder);

array_map('unlink', glob("$folder.preload/*"));
rmdir("$folder.preload");
?>
--EXPECT--
shm-size 33554432
slots 4096
ttl 0
values 1
process 0
0 apcu_add s:1:"a"; i:5;
b:1;
1 apcu_add s:1:"b"; s:15:"a:1:{i:0;i:1;}<1>";
b:1;
process 1
2 apcu_fetch s:1:"a";
i:5;b:1;
process 0
3 apcu_fetch s:1:"b";
s:15:"a:1:{i:0;i:1;}<1>";b:1;
exec
shm-size 33554432
slots 4096
ttl 0
values 1
process 0
time now
0 apcu_store s:1:"a"; i:1;
b:1;
1 apcu_store s:1:"a"; i:2;
b:1;
