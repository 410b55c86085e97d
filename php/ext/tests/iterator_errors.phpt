--TEST--
What an iterator refuses
--FILE--
<?php
require __DIR__ . '/common.inc';

foreach ([
    'new APCUIterator("/(/")', 'new APCUIterator("no")', 'new APCUIterator("/a/k")', 'new APCUIterator("")', 'new APCUIterator(5)', 'new APCUIterator(1.5)', 'new APCUIterator(true)',
    'new APCUIterator(new stdClass)', 'new APCUIterator(null, -1)', 'new APCUIterator(null, 4294967296)', 'new APCUIterator(null, "x")',
    'new APCUIterator(null, APC_ITER_ALL, -1)', 'new APCUIterator(null, APC_ITER_ALL, 0, 0)', 'new APCUIterator(null, APC_ITER_ALL, 0, 3)',
    'new APCUIterator(null, APC_ITER_ALL, 0, APC_LIST_DELETED)', 'apcu_delete(new stdClass)', 'apcu_delete(new ArrayObject)', 'serialize(new APCUIterator)',
    '(new APCUIterator)->none', 'apcu_store("it", new APCUIterator)', 'unserialize("O:12:\"APCUIterator\":0:{}")->valid()', 'clone new APCUIterator',
    '(new ReflectionClass("APCUIterator"))->newInstanceWithoutConstructor()->rewind()', 'apcu_delete((new ReflectionClass("APCUIterator"))->newInstanceWithoutConstructor())',
    '(new class extends APCUIterator { function __construct() {} })->current()', '(new class("/^x/") extends APCUIterator {})->getTotalCount()',
    '(function () { $i = new APCUIterator("/^x/"); $i->__construct("/^y/"); return $i->valid(); })()',
] as $code) {
    echo $code, ': ', run_php("try { \$r = $code; echo is_object(\$r) ? get_class(\$r) : json_encode(\$r); } catch (Throwable \$t) { echo get_class(\$t), ': ', \$t->getMessage(); }");
}
?>
--EXPECT--
new APCUIterator("/(/"): Warning: APCUIterator::__construct(): Compilation failed: missing closing parenthesis at offset 1 in Command line code on line 1

Fatal error: APCUIterator::__construct(): Could not compile regular expression: /(/ in Command line code on line 1 [status 255]
new APCUIterator("no"): Warning: APCUIterator::__construct(): Delimiter must not be alphanumeric, backslash, or NUL in Command line code on line 1

Fatal error: APCUIterator::__construct(): Could not compile regular expression: no in Command line code on line 1 [status 255]
new APCUIterator("/a/k"): Warning: APCUIterator::__construct(): Unknown modifier 'k' in Command line code on line 1

Fatal error: APCUIterator::__construct(): Could not compile regular expression: /a/k in Command line code on line 1 [status 255]
new APCUIterator(""): APCUIterator
new APCUIterator(5): APCUIterator
new APCUIterator(1.5): APCUIterator
new APCUIterator(true): APCUIterator
new APCUIterator(new stdClass): APCUIterator
new APCUIterator(null, -1): APCUIterator
new APCUIterator(null, 4294967296): Fatal error: APCUIterator::__construct(): APCUIterator format is invalid in Command line code on line 1 [status 255]
new APCUIterator(null, "x"): TypeError: APCUIterator::__construct(): Argument #2 ($format) must be of type int, string given
new APCUIterator(null, APC_ITER_ALL, -1): Fatal error: APCUIterator::__construct(): APCUIterator chunk size must be 0 or greater in Command line code on line 1 [status 255]
new APCUIterator(null, APC_ITER_ALL, 0, 0): Warning: APCUIterator::__construct(): APCUIterator invalid list type in Command line code on line 1
APCUIterator
new APCUIterator(null, APC_ITER_ALL, 0, 3): Warning: APCUIterator::__construct(): APCUIterator invalid list type in Command line code on line 1
APCUIterator
new APCUIterator(null, APC_ITER_ALL, 0, APC_LIST_DELETED): APCUIterator
apcu_delete(new stdClass): Fatal error: apcu_delete(): apc_delete object argument must be instance of APCUIterator. in Command line code on line 1 [status 255]
apcu_delete(new ArrayObject): Fatal error: apcu_delete(): apc_delete object argument must be instance of APCUIterator. in Command line code on line 1 [status 255]
serialize(new APCUIterator): "O:12:\"APCUIterator\":0:{}"
(new APCUIterator)->none: Warning: Undefined property: APCUIterator::$none in Command line code on line 1
null
apcu_store("it", new APCUIterator): true
unserialize("O:12:\"APCUIterator\":0:{}")->valid(): Error: Trying to use uninitialized APCUIterator
clone new APCUIterator: Error: Trying to clone an uncloneable object of class APCUIterator
(new ReflectionClass("APCUIterator"))->newInstanceWithoutConstructor()->rewind(): Error: Trying to use uninitialized APCUIterator
apcu_delete((new ReflectionClass("APCUIterator"))->newInstanceWithoutConstructor()): Error: Trying to use uninitialized APCUIterator
(new class extends APCUIterator { function __construct() {} })->current(): Error: Trying to use uninitialized APCUIterator
(new class("/^x/") extends APCUIterator {})->getTotalCount(): 0
(function () { $i = new APCUIterator("/^x/"); $i->__construct("/^y/"); return $i->valid(); })(): false
