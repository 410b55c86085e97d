--TEST--
Kept values: objects, references, deep arrays and short strings are not kept, nor anything without apc.kept_size
--INI--
apc.enabled=1
apc.enable_cli=1
--SKIPIF--
<?php
require __DIR__ . '/common.inc';
if (!is_ours()) die('skip APCu keeps no values');
if (PHP_ZTS) die('skip nothing is kept if PHP has threads');
?>
--FILE--
<?php
require __DIR__ . '/common.inc';

$code = <<<'PHP'
enum Suit { case Hearts; }
$x = 1;
$deep = [];
for ($i = 0; $i < 600; $i++) {
    $deep = [$deep];
}
$self = ['a' => 1];
$self['self'] = &$self;
$values = ['object' => new ArrayObject([1]), 'in an array' => [1, new stdClass], 'case' => [[Suit::Hearts]], 'reference' => [&$x, &$x],
    'self' => $self, 'deep' => $deep, 'string' => str_repeat('x', 65535), 'integer' => 5, 'double' => 1.5, 'true' => true, 'null' => null];
foreach ($values as $name => $value) {
    apcu_store($name, $value);
    $kept = apcu_cache_info(true)['kept_entries'];
    for ($i = 0; $i < 4; $i++) {
        $fetched = apcu_fetch($name);
        if (serialize($fetched) !== serialize($value)) {
            echo "$name differs\n";
        }
    }
    if (apcu_cache_info(true)['kept_entries'] !== $kept) {
        echo "$name is kept\n";
    }
}
$fetched = apcu_fetch('reference');
$fetched[0] = 2;
echo $fetched[1], ' ', apcu_fetch('reference')[1], "\n";
apcu_store('list', [1, 2]);
for ($i = 0; $i < 3; $i++) {
    apcu_fetch('list');
}
$info = apcu_cache_info(true);
echo json_encode([$info['kept_entries'], $info['kept_hits'], $info['kept_size'] > 0]);
PHP;
echo run_php($code, 'apc.kept_size=4M'), run_php($code, 'apc.kept_size=0'), run_php($code);
$folder = sys_get_temp_dir() . '/kept-' . getmypid();
mkdir($folder, 0700);
echo run_php($code, 'apc.kept_size=4M', "apc.record_dir=$folder");
array_map('unlink', glob("$folder/*"));
rmdir($folder);

// A text at a reader that knows no stamps has its length, and a fault in it its place.
echo run_php('apcu_store("a", [1, 2]); class C { function __unserialize($x): void { throw new Exception("thrown"); } function __serialize(): array { return []; } }
    apcu_store("c", [new C]); for ($i = 0; $i < 3; $i++) { try { var_dump(apcu_fetch("c")); } catch (Exception $e) { echo $e->getMessage(), "\n"; } }', 'apc.kept_size=4M');

$code = 'echo ini_get("apc.kept_size"), " "; ob_start(); phpinfo(INFO_MODULES); preg_match("/Kept Values => (.*)/", ob_get_clean(), $found); echo $found[1];';
foreach (['0', '8M', '-1', 'x', '1G'] as $size) {
    echo run_php($code, "apc.kept_size=$size");
}
echo run_php('var_dump(ini_set("apc.kept_size", "4M"));');
?>
--EXPECT--
2 1
[1,1,true]
2 1
[0,0,false]
2 1
[0,0,false]
2 1
[0,0,false]
thrown
thrown
thrown
0 Disabled
8M 0 of 0 bytes, with 0 hits, in this process
0 Disabled
Warning: Invalid "apc.kept_size" setting. Invalid quantity "x": no valid leading digits, interpreting as "0" for backwards compatibility in Unknown on line 0
x Disabled
1G 0 of 0 bytes, with 0 hits, in this process
bool(false)
