--TEST--
start_time moves at an expunge, since hits, misses and inserts count from there
--FILE--
<?php
require __DIR__ . '/common.inc';

echo run_php(<<<'CODE'
$before = apcu_cache_info(true)['start_time'];
sleep(2);
apcu_fetch('none');
for ($i = 0; apcu_cache_info(true)['expunges'] == 0; $i++) {
    apcu_store("x$i", str_repeat('x', 1000));
}
$info = apcu_cache_info(true);
var_dump($info['start_time'] !== $before, (int) $info['num_misses'], (int) $info['num_inserts']);
sleep(2);
$after = $info['start_time'];
apcu_store('y', 1);
var_dump(apcu_cache_info(true)['start_time'] === $after);
CODE, 'apc.shm_size=1M');
?>
--EXPECT--
bool(true)
int(0)
int(1)
bool(true)
