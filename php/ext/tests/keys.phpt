--TEST--
Keys of every kind, and what is no key
--INI--
apc.enabled=1
apc.enable_cli=1
error_reporting=-1
html_errors=0
--FILE--
<?php
set_error_handler(function (int $level, string $message): bool {
    echo "warning: $message\n";
    return true;
});
foreach (['', '0', '5', "\0", "a\0b", "\xff", str_repeat('k', 70000), 'ключ'] as $i => $key) {
    echo $i, ': ', json_encode([apcu_store($key, $i), apcu_fetch($key), apcu_exists($key), apcu_inc($key), apcu_key_info($key)['hits'], apcu_delete($key), apcu_exists($key)]), "\n";
}
function attempt(string $name, callable $what): void
{
    try {
        $answer = json_encode($what());
        echo "$name: $answer\n";
    } catch (Throwable $thrown) {
        echo $name, ': ', get_class($thrown), ': ', $thrown->getMessage(), "\n";
    }
}
foreach ([5, 1.5, true, null, [], new stdClass()] as $odd) {
    $name = get_debug_type($odd);
    attempt("store $name", fn () => apcu_store($odd, 1));
    attempt("add $name", fn () => apcu_add($odd, 1));
    attempt("fetch $name", fn () => apcu_fetch($odd));
    attempt("exists $name", fn () => apcu_exists($odd));
    if (!is_object($odd)) {
        attempt("delete $name", fn () => apcu_delete($odd));
    }
    attempt("inc $name", fn () => apcu_inc($odd));
    attempt("key_info $name", fn () => apcu_key_info($odd)['hits'] ?? null);
    attempt("lists of $name", fn () => [apcu_fetch([$odd, 'x']), apcu_exists([$odd, 'x']), apcu_delete([$odd, 'x'])]);
}
attempt('store without a value', fn () => apcu_store('a'));
attempt('store many with a value', fn () => [apcu_store(['a' => 1, 7 => 2], 'unused', 5), apcu_fetch('a'), apcu_fetch('7'), apcu_key_info('7')['ttl']]);
attempt('add many', fn () => apcu_add(['a' => 1, 'new' => 2, 7 => 3]));
attempt('resource', fn () => apcu_store('r', STDIN));
attempt('many resources', fn () => apcu_store(['r' => STDIN, 's' => 1]));
attempt('inc no number', fn () => [apcu_store('t', '5'), apcu_inc('t', 1, $ok), $ok, apcu_store('d', 1.5), apcu_inc('d'), apcu_fetch('d'), apcu_cas('t', 5, 6)]);
attempt('inc over the end', fn () => [apcu_store('n', PHP_INT_MAX), apcu_inc('n'), apcu_dec('n'), apcu_dec('n', PHP_INT_MIN)]);
attempt('references', function () {
    $one = 1;
    $values = ['r1' => &$one, 'r2' => &$one];
    apcu_store($values);
    $one = 2;
    return apcu_fetch(['r1', 'r2']);
});
?>
--EXPECT--
0: [true,0,true,1,1,true,false]
1: [true,1,true,2,1,true,false]
2: [true,2,true,3,1,true,false]
3: [true,3,true,4,1,true,false]
4: [true,4,true,5,1,true,false]
5: [true,5,true,6,1,true,false]
6: [true,6,true,7,1,true,false]
7: [true,7,true,8,1,true,false]
warning: apcu_store(): apc_store expects key parameter to be a string or an array of key/value pairs.
store int: false
warning: apcu_add(): apc_store expects key parameter to be a string or an array of key/value pairs.
add int: false
fetch int: false
exists int: false
warning: apcu_delete(): apc_delete() expects a string, array of strings, or APCIterator instance
delete int: false
inc int: 1
key_info int: 0
warning: apcu_fetch(): apc_fetch() expects a string or array of strings.
warning: apcu_exists(): apc_exists() expects a string or array of strings.
warning: apcu_delete(): apc_delete() expects a string, array of strings, or APCIterator instance
lists of int: [[],[],[5,"x"]]
warning: apcu_store(): apc_store expects key parameter to be a string or an array of key/value pairs.
store float: false
warning: apcu_add(): apc_store expects key parameter to be a string or an array of key/value pairs.
add float: false
fetch float: false
exists float: false
warning: apcu_delete(): apc_delete() expects a string, array of strings, or APCIterator instance
delete float: false
inc float: 1
key_info float: 0
warning: apcu_fetch(): apc_fetch() expects a string or array of strings.
warning: apcu_exists(): apc_exists() expects a string or array of strings.
warning: apcu_delete(): apc_delete() expects a string, array of strings, or APCIterator instance
lists of float: [[],[],[1.5,"x"]]
warning: apcu_store(): apc_store expects key parameter to be a string or an array of key/value pairs.
store bool: false
warning: apcu_add(): apc_store expects key parameter to be a string or an array of key/value pairs.
add bool: false
fetch bool: false
exists bool: false
warning: apcu_delete(): apc_delete() expects a string, array of strings, or APCIterator instance
delete bool: false
inc bool: 1
key_info bool: 0
warning: apcu_fetch(): apc_fetch() expects a string or array of strings.
warning: apcu_exists(): apc_exists() expects a string or array of strings.
warning: apcu_delete(): apc_delete() expects a string, array of strings, or APCIterator instance
lists of bool: [[],[],[true,"x"]]
warning: apcu_store(): apc_store expects key parameter to be a string or an array of key/value pairs.
store null: false
warning: apcu_add(): apc_store expects key parameter to be a string or an array of key/value pairs.
add null: false
fetch null: false
exists null: false
warning: apcu_delete(): apc_delete() expects a string, array of strings, or APCIterator instance
delete null: false
warning: apcu_inc(): Passing null to parameter #1 ($key) of type string is deprecated
inc null: 1
warning: apcu_key_info(): Passing null to parameter #1 ($key) of type string is deprecated
key_info null: 0
warning: apcu_fetch(): apc_fetch() expects a string or array of strings.
warning: apcu_exists(): apc_exists() expects a string or array of strings.
warning: apcu_delete(): apc_delete() expects a string, array of strings, or APCIterator instance
lists of null: [[],[],[null,"x"]]
store array: []
add array: []
fetch array: []
exists array: []
delete array: []
inc array: TypeError: apcu_inc(): Argument #1 ($key) must be of type string, array given
key_info array: TypeError: apcu_key_info(): Argument #1 ($key) must be of type string, array given
warning: apcu_fetch(): apc_fetch() expects a string or array of strings.
warning: apcu_exists(): apc_exists() expects a string or array of strings.
warning: apcu_delete(): apc_delete() expects a string, array of strings, or APCIterator instance
lists of array: [[],[],[[],"x"]]
warning: apcu_store(): apc_store expects key parameter to be a string or an array of key/value pairs.
store stdClass: false
warning: apcu_add(): apc_store expects key parameter to be a string or an array of key/value pairs.
add stdClass: false
fetch stdClass: Error: Object of class stdClass could not be converted to string
exists stdClass: Error: Object of class stdClass could not be converted to string
inc stdClass: TypeError: apcu_inc(): Argument #1 ($key) must be of type string, stdClass given
key_info stdClass: TypeError: apcu_key_info(): Argument #1 ($key) must be of type string, stdClass given
warning: apcu_fetch(): apc_fetch() expects a string or array of strings.
warning: apcu_exists(): apc_exists() expects a string or array of strings.
warning: apcu_delete(): apc_delete() expects a string, array of strings, or APCIterator instance
lists of stdClass: [[],[],[{},"x"]]
store without a value: false
store many with a value: [[],1,2,5]
add many: {"a":-1,"7":-1}
warning: apcu_store(): Cannot store resources in apcu cache
resource: false
warning: apcu_store(): Cannot store resources in apcu cache
many resources: {"r":-1}
inc no number: [true,false,false,true,false,1.5,false]
inc over the end: [true,-9223372036854775808,9223372036854775807,-1]
references: {"r1":1,"r2":1}
