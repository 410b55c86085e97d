--TEST--
Hooks of objects may call the cache during a walk
--INI--
apc.enabled=1
apc.enable_cli=1
--SKIPIF--
<?php
if (!function_exists('pcntl_fork') || !function_exists('posix_kill')) die('skip pcntl and posix are needed');
require __DIR__ . '/common.inc';
if (!is_ours()) die('skip APCu waits for its own lock there');
?>
--FILE--
<?php
require __DIR__ . '/common.inc';

class Caller
{
    public $key;
    public function __wakeup()
    {
        apcu_inc('woken');
        apcu_store('other', [$this->key]);
        apcu_delete($this->key);
    }
}
for ($i = 0; $i < 5; $i++) {
    $object = new Caller();
    $object->key = "row $i";
    apcu_store("row $i", $object);
}
echo in_child(function () {
    $found = 0;
    foreach (new APCUIterator('/^row/', APC_ITER_VALUE, 2) as $row) {
        $found++;
    }
    exit($found);
}), "\n";
var_dump(apcu_fetch('woken'), apcu_exists(['row 0', 'row 4']), is_free());
?>
--EXPECT--
ended 5
int(5)
array(0) {
}
bool(true)
