--TEST--
Rows live as long as their ttl says
--INI--
apc.enabled=1
apc.enable_cli=1
apc.use_request_time=0
apc.ttl=0
--FILE--
<?php
apcu_store('short', 1, 1);
apcu_store('long', 1, 100);
apcu_store('ever', 1);
apcu_add('added', 1, 1);
apcu_inc('counted', 5, $success, 1);
apcu_entry('made', fn () => 1, 1);
apcu_store(['many' => 1, 'more' => 2], null, 1);
$keys = ['short', 'long', 'ever', 'added', 'counted', 'made', 'many', 'more'];
echo implode(' ', array_keys(apcu_exists($keys))), "\n";
// A row is there at the second at which its time ends.
$end = microtime(true) + 2.1;
while (microtime(true) < $end) {
    usleep(10000);
}
echo implode(' ', array_keys(apcu_exists($keys))), "\n";
var_dump(apcu_fetch('short'), apcu_fetch(['short', 'long', 'made']), apcu_cas('counted', 5, 6), apcu_inc('counted'), apcu_add('added', 7), apcu_entry('made', fn () => 'again'));
$walked = iterator_to_array(new APCUIterator('/^(short|long|ever|many|more)$/', APC_ITER_KEY));
ksort($walked);
echo implode(' ', array_keys($walked)), "\n";
var_dump((new APCUIterator('/^(short|many|more)$/'))->getTotalCount());
$told = apcu_key_info('long');
var_dump($told['ttl'], $told['creation_time'] === $told['mtime'], $told['hits']);
?>
--EXPECT--
short long ever added counted made many more
long ever
bool(false)
array(1) {
  ["long"]=>
  int(1)
}
bool(false)
int(1)
bool(true)
string(5) "again"
ever long
int(0)
int(100)
bool(true)
int(1)
