--TEST--
Kept values: a fetch returns the value of the row, however often it was fetched, and whatever was done to it
--INI--
apc.enabled=1
apc.enable_cli=1
apc.shm_size=16M
--SKIPIF--
<?php
require __DIR__ . '/common.inc';
if (!is_ours()) die('skip APCu keeps no values');
if (PHP_ZTS) die('skip nothing is kept if PHP has threads');
?>
--FILE--
<?php
require __DIR__ . '/common.inc';

$code = <<<'PHP'
function kept(): array
{
    $info = apcu_cache_info(true);
    return [$info['kept_entries'], (int) $info['kept_hits']];
}

$values = [
    'list' => range(1, 1000), 'map' => ['id' => 7, 'name' => 'some name', 'roles' => ['a', 'b'], 5 => null, 'f' => 1.5, 't' => true, 'u' => false],
    'empty' => [], 'holes' => [3 => 'x', 7 => 'y'], 'gaps' => array_filter(range(0, 20), fn ($i) => $i % 3), 'negative' => [-5 => 1, -1 => 2],
    'same' => ['a' => ['text' => 'text'], 'b' => ['text' => 'text'], 'text' => 'text'], 'chars' => ['', 'a', "\0", 'b'],
    'deep' => [[[[[['x' => [[]]]]]]]], 'long' => str_repeat('long ', 20000), 'many' => array_combine(array_map(fn ($i) => "key $i", range(1, 3000)), range(1, 3000)),
];
foreach ($values as $name => $value) {
    apcu_store($name, $value);
}
$before = kept();
for ($i = 0; $i < 5; $i++) {
    foreach ($values as $name => $value) {
        if (apcu_fetch($name) !== $value) {
            echo "$name differs\n";
        }
    }
}
echo 'kept ', json_encode([$before, kept()]), ' of ', count($values), "\n";

// As a copy, and with the same next index.
foreach ($values as $name => $value) {
    if (!is_array($value)) {
        continue;
    }
    $fetched = apcu_fetch($name);
    $fetched[] = 'next';
    $value = unserialize(serialize($value));
    $value[] = 'next';
    $again = apcu_fetch($name);
    ksort($again);
    array_walk_recursive($again, function (&$x) { $x = 'changed'; });
    if ($fetched !== $value || apcu_fetch($name) !== $values[$name]) {
        echo "$name: a change is in the row\n";
    }
}
$list = apcu_fetch(['list', 'absent', 'map']);
var_dump($list === ['list' => $values['list'], 'map' => $values['map']]);
var_dump(apcu_entry('map', fn () => 'no') === $values['map']);
foreach (new APCUIterator('/^(list|long)$/') as $key => $row) {
    var_dump($row['value'] === $values[$key]);
}
var_dump(apcu_key_info('list')['hits'] > 5);

// Another value under the key, its end, and a new cache.
$old = apcu_fetch('map');
apcu_store('map', ['other']);
var_dump(apcu_fetch('map'), apcu_fetch('map') === ['other'], apcu_fetch('map') === ['other'], $old === $values['map']);
apcu_delete('map');
var_dump(apcu_fetch('map'));
apcu_store('map', 17);
var_dump(apcu_fetch('map'));
apcu_clear_cache();
var_dump(apcu_fetch('list'));
apcu_store('list', ['new']);
var_dump(apcu_fetch('list') === ['new'], $list['list'] === $values['list']);

// Equal bytes of another store are another value's.
for ($i = 0; $i < 4; $i++) {
    apcu_store('again', ['x' => $i % 2]);
    var_dump(apcu_fetch('again')['x'] + apcu_fetch('again')['x'] + apcu_fetch('again')['x']);
}
PHP;
foreach (['php', 'default'] as $serializer) {
    echo "$serializer:\n", $of = run_php($code, 'apc.kept_size=4M', "apc.serializer=$serializer");
    var_dump(preg_replace('/^kept.*/', '', $of) === preg_replace('/^kept.*/', '', run_php($code, "apc.serializer=$serializer")));
}
?>
--EXPECT--
php:
kept [[0,0],[11,33]] of 11
bool(true)
bool(true)
bool(true)
bool(true)
bool(true)
array(1) {
  [0]=>
  string(5) "other"
}
bool(true)
bool(true)
bool(true)
bool(false)
int(17)
bool(false)
bool(true)
bool(true)
int(0)
int(3)
int(0)
int(3)
bool(true)
default:
kept [[0,0],[11,33]] of 11
bool(true)
bool(true)
bool(true)
bool(true)
bool(true)
array(1) {
  [0]=>
  string(5) "other"
}
bool(true)
bool(true)
bool(true)
bool(false)
int(17)
bool(false)
bool(true)
bool(true)
int(0)
int(3)
int(0)
int(3)
bool(true)
