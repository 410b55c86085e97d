--TEST--
Without a cache each call is answered as APCu answers it
--INI--
apc.enabled=1
apc.enable_cli=0
--FILE--
<?php
set_error_handler(function (int $level, string $message): bool {
    echo "warning: $message\n";
    return true;
});
var_dump(apcu_enabled());
foreach ([
    'apcu_store' => ['a', 1], 'apcu_add' => ['a', 1], 'apcu_fetch' => ['a'], 'apcu_exists' => ['a'], 'apcu_delete' => ['a'],
    'apcu_inc' => ['a'], 'apcu_dec' => ['a'], 'apcu_cas' => ['a', 1, 2], 'apcu_entry' => ['a', fn () => 1], 'apcu_clear_cache' => [],
    'apcu_key_info' => ['a'], 'apcu_cache_info' => [], 'apcu_sma_info' => [],
] as $name => $arguments) {
    echo $name, ': ', json_encode($name(...$arguments)), "\n";
}
echo json_encode([apcu_store(['a' => 1, 'b' => 2]), apcu_fetch(['a', 'b']), apcu_exists(['a']), apcu_delete(['a', 'b'])]), "\n";
$success = 5;
apcu_fetch('a', $success);
var_dump($success);
$success = 5;
apcu_inc('a', 1, $success);
var_dump($success);
try {
    var_dump(new APCUIterator('/a/'));
} catch (Error $error) {
    echo get_class($error), ': ', $error->getMessage(), "\n";
}
?>
--EXPECT--
bool(false)
apcu_store: false
apcu_add: false
apcu_fetch: false
apcu_exists: false
apcu_delete: false
apcu_inc: false
apcu_dec: false
apcu_cas: false
apcu_entry: null
apcu_clear_cache: true
apcu_key_info: null
apcu_cache_info: warning: apcu_cache_info(): No APC info available.  Perhaps APC is not enabled? Check apc.enabled in your ini file
false
apcu_sma_info: warning: apcu_sma_info(): No APC SMA info available.  Perhaps APC is disabled via apc.enabled?
false
[{"a":-1,"b":-1},[],[],["a","b"]]
bool(false)
bool(false)
Error: APC must be enabled to use APCUIterator
