--TEST--
A record that can't be written, or reaches its limit, ends with one line in the log, and the site goes on
--SKIPIF--
<?php
require __DIR__ . '/common.inc';
if (!is_ours()) die('skip APCu records nothing');
if (PHP_OS_FAMILY !== 'Linux' || !is_executable('/bin/bash')) die('skip bash is needed');
if (!function_exists('pcntl_fork')) die('skip pcntl is needed');
?>
--FILE--
<?php
require __DIR__ . '/common.inc';
require __DIR__ . '/record.inc';

$code = 'for ($i = 0; $i < 3000; $i++) apcu_store("k$i", str_repeat("v", 1000)); var_dump(apcu_fetch("k2999") === str_repeat("v", 1000));';

echo run_php($code, 'apc.record_dir=/nowhere/at/all');
echo run_php($code, 'apc.record_dir=' . __FILE__);

// Where files may have so few bytes, a write ends as on a full disk. Of two processes one tells it.
file_put_contents("$folder.php", "<?php if (pcntl_fork() === 0) { $code exit; } pcntl_wait(\$s); $code");
$php = escapeshellarg(getenv('TEST_PHP_EXECUTABLE') ?: PHP_BINARY) . ' -n -d extension=' . escapeshellarg(extension_file());
$so = file_exists($file = PHP_EXTENSION_DIR . '/pcntl.so') ? "extension=$file" : 'apc.smart=0';
echo shell_exec("bash -c 'trap \"\" XFSZ; ulimit -f 1000; exec $php -d $so -d apc.enable_cli=1 -d apc.record_dir=$folder $folder.php' 2>&1");
unlink("$folder.php");
$size = filesize(glob("$folder/*.record")[0]);
var_dump($size > 900000 && $size <= 1024000, str_contains(taken_record($folder), '100 apcu_store s:4:"k100"; s:1001:"v'));

// The limit.
echo run_php($code, "apc.record_dir=$folder", 'apc.record_size=1M');
$size = filesize(glob("$folder/*.record")[0]);
$text = taken_record($folder);
var_dump($size > 1000000 && $size <= 1048576, str_contains($text, 'behind the events'));
echo run_php($code, "apc.record_dir=$folder", 'apc.record_size=0');
var_dump(filesize(glob("$folder/*.record")[0]) > 3000000);
taken_record($folder);

// The server opened the file: it is written, whatever its name is by now, and if it has none any more.
echo run_php("apcu_store('a', 1); rename('$folder', '$folder.old'); touch('$folder'); if (pcntl_fork() === 0) { apcu_store('a', 2); exit; } pcntl_wait(\$s); apcu_store('a', 3); var_dump(apcu_fetch('a'));", "apc.record_dir=$folder", $so);
unlink($folder);
echo taken_record("$folder.old");
echo run_php("apcu_store('a', 1); array_map('unlink', glob('$folder/*')); rmdir('$folder'); apcu_store('a', str_repeat('x', 3000000)); var_dump(strlen(apcu_fetch('a')));", "apc.record_dir=$folder");

// A folder in which others may replace files.
mkdir($folder);
chmod($folder, 0777);
echo run_php("apcu_store('a', 1); var_dump(apcu_fetch('a'));", "apc.record_dir=$folder");
chmod($folder, 01777);
echo run_php("apcu_store('a', 1); var_dump(count(glob('$folder/*.record')));", "apc.record_dir=$folder");
symlink($folder, "$folder.link");
echo run_php("var_dump(apcu_store('a', 1));", "apc.record_dir=$folder.link");
unlink("$folder.link");
array_map('unlink', glob("$folder/*"));
rmdir($folder);
?>
--EXPECTF--
apcu: no calls are recorded: /nowhere/at/all: No such file or directory
bool(true)
apcu: no calls are recorded: %s: Not a directory
bool(true)
apcu: no more calls are recorded: %s.record: File too large
bool(true)
bool(true)
bool(true)
bool(true)
apcu: no more calls are recorded: %s.record: apc.record_size is reached
bool(true)
bool(true)
bool(false)
bool(true)
bool(true)
int(3)
shm-size 33554432
slots 4096
ttl 0
values 1
process 0
time now
0 apcu_store s:1:"a"; i:1;
b:1;
process 1
1 apcu_store s:1:"a"; i:2;
b:1;
process 0
2 apcu_store s:1:"a"; i:3;
b:1;
3 apcu_fetch s:1:"a";
i:3;b:1;
int(3000000)
apcu: no calls are recorded: %s: others may write in the folder, and it has no sticky bit
int(1)
int(1)
apcu: no calls are recorded: %s: Not a directory
bool(true)
