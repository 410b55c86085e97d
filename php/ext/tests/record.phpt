--TEST--
apc.record_dir: each event with its number, process, moment, call and reply
--SKIPIF--
<?php
require __DIR__ . '/common.inc';
if (!is_ours()) die('skip APCu records nothing');
?>
--FILE--
<?php
require __DIR__ . '/common.inc';
require __DIR__ . '/record.inc';

$code = <<<'CODE'
apcu_store('a', 'hello'); apcu_fetch('a'); apcu_fetch('none'); apcu_exists('a'); apcu_add('a', 1);
apcu_store('n', 5, 60); apcu_inc('n', 3); apcu_cas('n', 8, 9); apcu_cas('n', 8, 9); apcu_dec('a'); apcu_dec('k', 2, $s, 10);
apcu_store("b\n\"", ['x' => "q\n"]); apcu_fetch(["b\n\"", 'n']); apcu_store(['t' => true, 'z' => null, 'd' => 0.0]); apcu_fetch('d');
apcu_store('over', 1, -5); apcu_delete('a'); apcu_entry('e', fn () => 'made');
foreach (new APCUIterator('/./') as $row) {} apcu_cache_info(); apcu_key_info('n'); apcu_store('r', fopen('php://memory', 'r'));
apcu_clear_cache();
CODE;
run_php($code, "apc.record_dir=$folder", 'apc.use_request_time=1');
echo taken_record($folder);

echo "without values\n";
run_php('apcu_store("a", str_repeat("secret", 5)); apcu_fetch("a"); apcu_store("n", 1, 2); apcu_fetch("n"); apcu_store("d", 1.5);', "apc.record_dir=$folder", 'apc.record_values=0');
echo taken_record($folder);

echo "off\n";
run_php('apcu_store("a", 1);', 'apc.record_dir=');
run_php('var_dump(ini_set("apc.record_dir", "/tmp"));');
run_php('apcu_store("a", 1);', "apc.record_dir=$folder", 'apc.enable_cli=0');
var_dump(is_dir($folder));
run_php('1;', "apc.record_dir=$folder");
var_dump(scandir($folder) === ['.', '..']);
rmdir($folder);
?>
--EXPECT--
shm-size 33554432
slots 4096
ttl 0
values 1
process 0
time now
0 apcu_store s:1:"a"; s:6:"hello<0>";
b:1;
1 apcu_fetch s:1:"a";
s:6:"hello<0>";b:1;
2 apcu_fetch s:4:"none";
b:0;b:0;
3 apcu_exists s:1:"a";
b:1;
4 apcu_add s:1:"a"; i:1;
b:0;
5 apcu_store s:1:"n"; i:5; i:60;
b:1;
6 apcu_inc s:1:"n"; i:3;
i:8;b:1;
7 apcu_cas s:1:"n"; i:8; i:9;
b:1;
8 apcu_cas s:1:"n"; i:8; i:9;
b:0;
9 apcu_inc s:1:"a"; i:-1;
b:0;b:0;
10 apcu_inc s:1:"k"; i:-2; i:10;
i:-2;b:1;
11 apcu_store s:3:"b
""; s:24:"a:1:{s:1:"x";s:2:"q
";}<1>";
b:1;
12 apcu_fetch s:3:"b
"";
s:24:"a:1:{s:1:"x";s:2:"q
";}<1>";b:1;
13 apcu_fetch s:1:"n";
i:9;b:1;
14 apcu_store s:1:"t"; b:1;
b:1;
15 apcu_store s:1:"z"; N;
b:1;
16 apcu_store s:1:"d"; s:9:"<0><0><0><0><0><0><0><0><2>";
b:1;
17 apcu_fetch s:1:"d";
s:9:"<0><0><0><0><0><0><0><0><2>";b:1;
time now - 2
18 apcu_store s:4:"over"; i:1; i:1;
b:1;
time i:0;
19 apcu_delete s:1:"a";
b:1;
time now
20 apcu_exists s:1:"e";
b:0;
21 apcu_fetch s:1:"e";
b:0;b:0;
22 apcu_add s:1:"e"; s:5:"made<0>";
b:1;
23 apcu_clear_cache
b:1;
without values
shm-size 33554432
slots 4096
ttl 0
values 0
process 0
time now
0 apcu_store s:1:"a"; x:31;
b:1;
1 apcu_fetch s:1:"a";
x:31;b:1;
2 apcu_store s:1:"n"; i:1; i:2;
b:1;
3 apcu_fetch s:1:"n";
i:1;b:1;
4 apcu_store s:1:"d"; x:9;
b:1;
off
bool(false)
bool(true)
