--TEST--
Many rows: walks of any chunk, deletion by an iterator, and what is told
--INI--
apc.enabled=1
apc.enable_cli=1
apc.entries_hint=512
--FILE--
<?php
for ($i = 0; $i < 5000; $i++) {
    apcu_store("row $i", $i);
    apcu_store("other $i", "$i");
}
foreach ([1, 7, 100, 20000] as $chunk) {
    $sum = 0;
    $keys = [];
    foreach (new APCUIterator('/^row \d+$/', APC_ITER_VALUE, $chunk) as $key => $row) {
        $sum += $row['value'];
        $keys[$key] = 1;
    }
    echo $sum, ' ', count($keys), "\n";
}
$rows = new APCUIterator('/^row .*5$/');
echo $rows->getTotalCount(), ' ', $rows->getTotalHits(), "\n";
$told = apcu_cache_info();
echo count($told['cache_list']), ' ', $told['num_entries'], ' ', array_sum($told['slot_distribution']), ' ', $told['num_slots'] >= 512 ? 'slots' : 'few', "\n";
var_dump(apcu_delete(new APCUIterator('/^row .*5$/', APC_ITER_NONE, 10)));
echo apcu_cache_info(true)['num_entries'], "\n";
// Deleted while they are walked over.
foreach (new APCUIterator('/^row/', APC_ITER_KEY, 3) as $key => $row) {
    apcu_delete($key);
}
echo apcu_cache_info(true)['num_entries'], "\n";
$names = [];
for ($i = 0; $i < 5000; $i += 2) {
    $names[] = "other $i";
}
echo count(apcu_exists($names)), ' ', count(apcu_fetch($names)), ' ', count(apcu_delete([...$names, 'none'])), "\n";
echo (new APCUIterator())->getTotalCount(), "\n";
?>
--EXPECT--
12497500 5000
12497500 5000
12497500 5000
12497500 5000
500 0
10000 10000 10000 slots
bool(true)
9500
5000
2500 2500 1
2500
