--TEST--
No record is made in a folder of another user; processes of other users write the file that the server opened
--SKIPIF--
<?php
require __DIR__ . '/common.inc';
if (!is_ours()) die('skip APCu records nothing');
if (!function_exists('pcntl_fork') || !function_exists('posix_setuid') || posix_geteuid() !== 0) die('skip pcntl, posix and root are needed');
?>
--FILE--
<?php
require __DIR__ . '/common.inc';
require __DIR__ . '/record.inc';

$sos = [];
foreach (['pcntl', 'posix'] as $name) {
    $sos[] = file_exists($file = PHP_EXTENSION_DIR . "/$name.so") ? "extension=$file" : 'apc.smart=0';
}
// The work of two users, after a master of root's has started. Each writes more than waits in memory.
$code = <<<'CODE'
foreach ([65534, 65533] as $user) {
    if (pcntl_fork() === 0) {
        posix_setgid($user);
        posix_setuid($user);
        apcu_store("of $user", str_repeat("x", 2000000));
        exit;
    }
    pcntl_wait($s);
}
CODE;
echo run_php($code, "apc.record_dir=$folder", ...$sos);
echo fileowner(glob("$folder/*.record")[0]), "\n";
// A second may begin between the two stores.
echo preg_replace(['/x{9}+x*/', '/^time i:\d+;\n/m'], ['xx', ''], taken_record($folder));

mkdir($folder, 0700);
chown($folder, 65534);
echo run_php($code, "apc.record_dir=$folder", ...$sos);
echo count(glob("$folder/*")), "\n";
rmdir($folder);
?>
--EXPECTF--
0
shm-size 33554432
slots 4096
ttl 0
values 1
process 0
time now
0 apcu_store s:8:"of 65534"; s:2000001:"xx<0>";
b:1;
process 1
1 apcu_store s:8:"of 65533"; s:2000001:"xx<0>";
b:1;
apcu: no calls are recorded: %s: the folder's owner is user 65534; it has to be user 0, which starts the server
0
