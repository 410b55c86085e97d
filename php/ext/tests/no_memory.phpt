--TEST--
Where the memory can't be had the server starts without a cache, and one warning says so
--SKIPIF--
<?php
require __DIR__ . '/common.inc';
if (!is_ours()) die('skip with APCu the server does not start');
?>
--FILE--
<?php
require __DIR__ . '/common.inc';

$code = 'var_dump(apcu_enabled(), apcu_store("a", 1), apcu_fetch("a"), apcu_exists("a"), apcu_inc("a"), apcu_delete("a"), apcu_add("a", 1), apcu_cas("a", 1, 2), apcu_entry("a", fn () => 5), apcu_clear_cache(), apcu_key_info("a"), apcu_cache_info(), apcu_sma_info());
try { new APCUIterator(); } catch (Error $error) { echo $error->getMessage(), "\n"; }';
echo run_php($code, 'apc.shm_size=4000000G');
echo run_php($code, 'apc.shm_size=100G');
// Less than a process may have.
$words = ['sh', '-c', 'ulimit -v 600000 && exec "$0" "$@"', getenv('TEST_PHP_EXECUTABLE') ?: PHP_BINARY, '-n', '-d', 'extension=' . extension_file(),
    '-d', 'apc.enable_cli=1', '-d', 'apc.shm_size=900M', '-d', 'html_errors=0', '-d', 'log_errors=0', '-r', 'var_dump(apcu_enabled(), apcu_store("a", 1));'];
$started = proc_open($words, [1 => ['pipe', 'w'], 2 => ['redirect', 1]], $pipes);
echo stream_get_contents($pipes[1]);
var_dump(proc_close($started));
?>
--EXPECTF--
Warning: apc.shm_size is 4294967296000000 bytes, which exceeds the maximum of %d; APCu is disabled in Unknown on line 0

Warning: apcu_cache_info(): No APC info available.  Perhaps APC is not enabled? Check apc.enabled in your ini file in Command line code on line 1

Warning: apcu_sma_info(): No APC SMA info available.  Perhaps APC is disabled via apc.enabled? in Command line code on line 1
bool(false)
bool(false)
bool(false)
bool(false)
bool(false)
bool(false)
bool(false)
bool(false)
NULL
bool(true)
NULL
bool(false)
bool(false)
APC must be enabled to use APCUIterator
Warning: apc.shm_size is 107374182400 bytes, which exceeds the maximum of %d; APCu is disabled in Unknown on line 0

Warning: apcu_cache_info(): No APC info available.  Perhaps APC is not enabled? Check apc.enabled in your ini file in Command line code on line 1

Warning: apcu_sma_info(): No APC SMA info available.  Perhaps APC is disabled via apc.enabled? in Command line code on line 1
bool(false)
bool(false)
bool(false)
bool(false)
bool(false)
bool(false)
bool(false)
bool(false)
NULL
bool(true)
NULL
bool(false)
bool(false)
APC must be enabled to use APCUIterator

Warning: %s in Unknown on line 0
bool(false)
bool(false)
int(0)
