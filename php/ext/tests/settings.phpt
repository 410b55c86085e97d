--TEST--
Settings that are no good get APCu's messages, and the server starts or doesn't
--FILE--
<?php
require __DIR__ . '/common.inc';

$code = 'echo apcu_enabled() ? "on " : "off ", json_encode(apcu_store("a", 1)), " ", @apcu_cache_info(true)["num_slots"] > 0 ? "slots " : "none ", round((@apcu_sma_info(true)["seg_size"] ?? 0) / 1048576), " MB";';
foreach ([
    ['apc.enabled=0'], ['apc.enable_cli=0'],
    ['apc.shm_size=0'], ['apc.shm_size=-1'], ['apc.shm_size=abc'], ['apc.shm_size='], ['apc.shm_size=2'], ['apc.shm_size=16M'], ['apc.shm_size=16X'],
    ['apc.shm_segments=2'], ['apc.shm_segments=0'], ['apc.shm_segments=x'],
    ['apc.entries_hint=0'], ['apc.entries_hint=-5'], ['apc.entries_hint=x'], ['apc.entries_hint=100000'], ['apc.shm_size=1M', 'apc.entries_hint=10000000'],
    ['apc.ttl=-1'], ['apc.ttl=x'], ['apc.gc_ttl=-1'], ['apc.smart=5'], ['apc.serializer=none'], ['apc.serializer='], ['apc.serializer=default'],
    ['apc.preload_path=/nowhere/at/all'], ['apc.slam_defense=yes'], ['apc.use_request_time=on'], ['apc.coredump_unmap=1'], ['apc.none=1'],
] as $settings) {
    echo implode(' ', $settings), ': ', run_php($code, ...$settings);
}
foreach (['apc.shm_size' => '8M', 'apc.ttl' => '5', 'apc.enabled' => '0', 'apc.use_request_time' => '1'] as $name => $value) {
    echo $name, ': ', run_php("var_dump(ini_set('$name', '$value'), ini_get('$name'));");
}
?>
--EXPECTF--
apc.enabled=0: off false none 0 MB
apc.enable_cli=0: off false none 0 MB
apc.shm_size=0: on true slots 32 MB
apc.shm_size=-1: on true slots 32 MB
apc.shm_size=abc: Warning: Invalid "apc.shm_size" setting. Invalid quantity "abc": no valid leading digits, interpreting as "0" for backwards compatibility in Unknown on line 0
on true slots 32 MB
apc.shm_size=: on true slots 32 MB
apc.shm_size=2: Warning: PHP Startup: apc.shm_size now uses M/G suffixes, please update your ini files in Unknown on line 0
on true slots 2 MB
apc.shm_size=16M: on true slots 16 MB
apc.shm_size=16X: Warning: Invalid "apc.shm_size" setting. Invalid quantity "16X": unknown multiplier "X", interpreting as "16" for backwards compatibility in Unknown on line 0

Warning: PHP Startup: apc.shm_size now uses M/G suffixes, please update your ini files in Unknown on line 0
on true slots 16 MB
apc.shm_segments=2: Warning: PHP Startup: apc.shm_segments setting ignored in MMAP mode in Unknown on line 0
on true slots 32 MB
apc.shm_segments=0: Warning: PHP Startup: apc.shm_segments setting ignored in MMAP mode in Unknown on line 0
on true slots 32 MB
apc.shm_segments=x: Warning: PHP Startup: apc.shm_segments setting ignored in MMAP mode in Unknown on line 0
on true slots 32 MB
apc.entries_hint=0: on true slots 32 MB
apc.entries_hint=-5: on true slots 32 MB
apc.entries_hint=x: Warning: Invalid "apc.entries_hint" setting. Invalid quantity "x": no valid leading digits, interpreting as "0" for backwards compatibility in Unknown on line 0
on true slots 32 MB
apc.entries_hint=100000: on true slots 32 MB
apc.shm_size=1M apc.entries_hint=10000000: Fatal error: Unable to allocate %d bytes of shared memory for cache structures. Either apc.shm_size is too small or apc.entries_hint too large in Unknown on line 0 [status 254]
apc.ttl=-1: on true slots 32 MB
apc.ttl=x: Warning: Invalid "apc.ttl" setting. Invalid quantity "x": no valid leading digits, interpreting as "0" for backwards compatibility in Unknown on line 0
on true slots 32 MB
apc.gc_ttl=-1: on true slots 32 MB
apc.smart=5: on true slots 32 MB
apc.serializer=none: on true slots 32 MB
apc.serializer=: on true slots 32 MB
apc.serializer=default: on true slots 32 MB
apc.preload_path=/nowhere/at/all: on true slots 32 MB
apc.slam_defense=yes: on true slots 32 MB
apc.use_request_time=on: on true slots 32 MB
apc.coredump_unmap=1: on true slots 32 MB
apc.none=1: on true slots 32 MB
apc.shm_size: bool(false)
string(3) "32M"
apc.ttl: bool(false)
string(1) "0"
apc.enabled: bool(false)
string(1) "1"
apc.use_request_time: string(1) "0"
string(1) "1"
