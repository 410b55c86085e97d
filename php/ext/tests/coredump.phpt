--TEST--
Core dumps leave the cache out, unless apc.coredump_unmap=0 is set
--SKIPIF--
<?php
require __DIR__ . '/common.inc';
if (!is_ours()) die('skip APCu leaves it out by handlers of signals');
if (!is_readable('/proc/self/smaps')) die('skip no /proc/self/smaps');
?>
--FILE--
<?php
require __DIR__ . '/common.inc';

$code = <<<'CODE'
preg_match_all('~^\S+ rw-s \S+ \S+ \S+ +/dev/zero.*?^VmFlags:(.*?)$~ms', file_get_contents('/proc/self/smaps'), $found);
echo count($found[1]) > 0 && !str_contains(implode($found[1]), ' dd') ? 'dumped' : 'left out', "\n";
CODE;
foreach ([[], ['apc.coredump_unmap=1'], ['apc.coredump_unmap=0'], ['apc.coredump_unmap=off']] as $settings) {
    echo implode($settings) ?: 'by default', ': ', run_php($code, ...$settings);
}
?>
--EXPECT--
by default: left out
apc.coredump_unmap=1: left out
apc.coredump_unmap=0: dumped
apc.coredump_unmap=off: dumped
