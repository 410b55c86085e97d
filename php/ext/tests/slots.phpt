--TEST--
apc.entries_hint becomes twice a prime, and its default stays as it is
--SKIPIF--
<?php
require __DIR__ . '/common.inc';
is_ours() || print 'skip APCu takes a prime of its table';
?>
--FILE--
<?php
require __DIR__ . '/common.inc';

foreach ([0, 1, 256, 2000, 4095, 4096, 4097, 100000, 300000, 1048573, 1048576, PHP_INT_MAX] as $hint) {
    echo $hint, ': ', run_php('echo apcu_cache_info(true)["num_slots"];', "apc.entries_hint=$hint");
}
?>
--EXPECT--
0: 2018
1: 262
256: 262
2000: 2018
4095: 4106
4096: 4096
4097: 4106
100000: 100042
300000: 300002
1048573: 1048574
1048576: 1048574
9223372036854775807: 1048574
