--TEST--
Kept values: no process has more bytes of them than apc.kept_size, and beyond it a fetch builds its value
--INI--
apc.enabled=1
apc.enable_cli=1
apc.shm_size=32M
--SKIPIF--
<?php
require __DIR__ . '/common.inc';
if (!is_ours()) die('skip APCu keeps no values');
if (PHP_ZTS) die('skip nothing is kept if PHP has threads');
?>
--FILE--
<?php
require __DIR__ . '/common.inc';

// One request that never ends: what another value has replaced is memory until the end.
echo run_php(<<<'PHP'
$most = 0;
$value = range(1, 2000);
for ($i = 0; $i < 300; $i++) {
    $value[0] = $i;
    apcu_store('k', $value);
    for ($j = 0; $j < 3; $j++) {
        $fetched = apcu_fetch('k');
        if ($fetched !== $value) {
            exit('differs');
        }
        if ($i % 10 === 0) {
            $all["$i.$j"] = [$fetched, $i];
        }
    }
    $most = max($most, apcu_cache_info(true)['kept_size']);
}
foreach ($all as [$fetched, $i]) {
    if ($fetched[0] !== $i || count($fetched) !== 2000) {
        echo "changed\n";
    }
}
var_dump($most > 900000, $most <= 1048576, apcu_cache_info(true)['kept_hits'] > 20);
PHP, 'apc.kept_size=1M');

// Nothing that is larger than all room, and no key that is.
echo run_php(<<<'PHP'
apcu_store('large', range(1, 5000));
apcu_store($key = str_repeat('k', 60000), [1]);
apcu_store('text', str_repeat('t', 65536));
for ($i = 0; $i < 4; $i++) {
    if (count(apcu_fetch('large')) !== 5000 || apcu_fetch($key) !== [1] || apcu_fetch('text') !== str_repeat('t', 65536)) {
        echo 'differs';
    }
}
echo json_encode([apcu_cache_info(true)['kept_entries'], apcu_cache_info(true)['kept_size']]);
PHP, 'apc.kept_size=50K');

// A fetch that keeps a value needs no more memory of PHP's than one that doesn't.
foreach (['0', '32M'] as $size) {
    echo run_php(<<<'PHP'
$value = [];
for ($i = 0; $i < 20000; $i++) {
    $value["key $i"] = "text $i";
}
apcu_store('k', $value);
unset($value);
for ($i = 0; $i < 3; $i++) {
    memory_reset_peak_usage();
    $before = memory_get_usage();
    $fetched = apcu_fetch('k');
    $peak = memory_get_peak_usage() - $before;
    unset($fetched);
    $peaks[] = $peak > 1000000 ? 'builds' : 'returns';
}
echo implode(' ', $peaks);
PHP, "apc.kept_size=$size");
}
?>
--EXPECT--
bool(true)
bool(true)
bool(true)
[0,0]
builds builds builds
builds builds returns
