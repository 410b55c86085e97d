--TEST--
A walk goes step by step: rows that were read stay as they were, others are as they are then
--INI--
apc.enabled=1
apc.enable_cli=1
apc.use_request_time=0
--FILE--
<?php
// Keys whose slots stand in this order.
$keys = range('a', 'j');
foreach ($keys as $key) {
    apcu_store($key, 1);
}
$seen = [];
foreach (new APCUIterator('/^[a-j]$/', APC_ITER_VALUE, 3) as $key => $row) {
    $seen[] = $key . $row['value'];
    foreach ($keys as $other) {
        apcu_store($other, 2);
    }
}
echo implode(' ', $seen), "\n";
$counts = array_count_values(array_map(fn ($one) => substr($one, 1), $seen));
var_dump(count($seen), $counts[1] >= 3 && $counts[2] >= 1);

// Rows that go during the walk are not found, new ones may be.
$seen = [];
foreach (new APCUIterator('/^[a-j]$/', APC_ITER_KEY, 1) as $key => $row) {
    $seen[] = $key;
    array_map('apcu_delete', array_diff($keys, ['a', 'j']));
}
var_dump(count($seen) < 5, end($seen));
apcu_clear_cache();

// By a list of keys, in its order.
apcu_store(['x' => 1, 'y' => 2, 'z' => 3, '5' => 4]);
foreach (new APCUIterator(['z', 'none', 'x', 'z', '5'], APC_ITER_VALUE) as $key => $row) {
    echo gettype($key), " $key {$row['value']}\n";
}
$rows = new APCUIterator(['x', 'y', 'none']);
var_dump($rows->getTotalCount(), $rows->getTotalHits());
var_dump(apcu_delete($rows), apcu_exists(['x', 'y', 'z']));

// It deletes from where it has come to.
apcu_store(['a1' => 1, 'a2' => 1, 'a3' => 1]);
$rows = new APCUIterator('/^a\d/', APC_ITER_KEY);
foreach ($rows as $row);
var_dump(apcu_delete($rows), count(apcu_exists(['a1', 'a2', 'a3'])));
$rows->rewind();
var_dump(apcu_delete($rows), count(apcu_exists(['a1', 'a2', 'a3'])));

// All fields, and none.
apcu_store('one', 'value', 60);
foreach ([APC_ITER_ALL, APC_ITER_NONE, APC_ITER_KEY | APC_ITER_TTL, APC_ITER_TYPE | APC_ITER_REFCOUNT] as $format) {
    foreach (new APCUIterator('/^one$/', $format) as $key => $row) {
        echo $key, ': ', implode(' ', array_map(fn ($name, $value) => "$name " . gettype($value), array_keys($row), $row)), "\n";
    }
}
$rows = new APCUIterator('/^one$/');
var_dump($rows->valid(), $rows->key(), $rows->current()['key'], $rows->next(), $rows->valid());
foreach (['current', 'key'] as $method) {
    try {
        $rows->$method();
    } catch (Error $error) {
        echo $error->getMessage(), "\n";
    }
}
// One that is walked twice, and left in the middle.
foreach ($rows as $key => $row) {
    foreach (new APCUIterator('/^one$/') as $inner => $other) {
        echo "$key $inner\n";
        break;
    }
}
?>
--EXPECT--
a1 b1 c1 d1 e2 f2 g2 h2 i2 j2
int(10)
bool(true)
bool(true)
string(1) "j"
string 5 4
string x 1
string z 3
int(2)
int(0)
bool(true)
array(1) {
  ["z"]=>
  bool(true)
}
bool(true)
int(3)
bool(true)
int(3)
one: type string key string value string num_hits integer mtime integer creation_time integer deletion_time integer access_time integer ref_count integer mem_size integer ttl integer
one: 
one: key string ttl integer
one: type string ref_count integer
bool(true)
string(3) "one"
string(3) "one"
NULL
bool(false)
Cannot call current() on invalid iterator
Cannot call key() on invalid iterator
one one
