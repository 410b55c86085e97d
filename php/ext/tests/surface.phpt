--TEST--
The functions, the class, the constants and the settings are APCu's
--INI--
apc.enabled=1
apc.enable_cli=1
--FILE--
<?php
function words_of(ReflectionFunctionAbstract $function): string
{
    $parameters = [];
    foreach ($function->getParameters() as $parameter) {
        $default = $parameter->isDefaultValueAvailable()
            ? ' = ' . ($parameter->isDefaultValueConstant() ? $parameter->getDefaultValueConstantName() : json_encode($parameter->getDefaultValue()))
            : ($parameter->isOptional() ? ' = ?' : '');
        $parameters[] = trim($parameter->getType() . ' ') . ' ' . ($parameter->isPassedByReference() ? '&' : '') . '$' . $parameter->getName() . $default;
    }
    $type = $function->getReturnType() ?? $function->getTentativeReturnType();
    return $function->getName() . '(' . implode(', ', $parameters) . '): ' . ($type ?? 'none');
}

$extension = new ReflectionExtension('apcu');
$functions = $extension->getFunctions();
ksort($functions);
foreach ($functions as $function) {
    echo words_of($function), "\n";
}
foreach ($extension->getClasses() as $class) {
    echo $class->getName(), ' implements ', implode(', ', $class->getInterfaceNames()), $class->isFinal() ? ' final' : '', $class->isCloneable() ? ' cloneable' : '', "\n";
    foreach ($class->getMethods() as $method) {
        echo '    ', implode(' ', Reflection::getModifierNames($method->getModifiers())), ' ', words_of($method), "\n";
    }
    echo count($class->getProperties()), ' properties, ', count($class->getConstants()), " constants\n";
}
foreach ($extension->getConstants() as $name => $value) {
    echo str_starts_with($name, 'APC_') ? "$name $value\n" : '';
}
foreach (ini_get_all('apcu') as $name => $setting) {
    // Those of the record and of kept values are not APCu's.
    echo preg_match('/^apc\.(record|kept)_/', $name) ? '' : "$name {$setting['access']}\n";
}
echo $extension->isPersistent() ? 'persistent' : '', "\n";
var_dump(version_compare(phpversion('apcu'), '5.1.18', '>='));
ob_start();
$extension->info();
foreach (explode("\n", ob_get_clean()) as $line) {
    if (preg_match('/^(APCu Support|MMAP Support|Serialization Support|Directive|apc\.\w+) => .*/', $line) && !preg_match('/shm_size|enable_cli|record_|kept_/', $line)) {
        echo preg_replace('/(Serialization Support => php).*/', '$1', trim($line)), "\n";
    }
}
?>
--EXPECT--
apcu_add( $key, mixed $value = ?, int $ttl = 0): array|bool
apcu_cache_info(bool $limited = false): array|false
apcu_cas(string $key, int $old, int $new): bool
apcu_clear_cache(): bool
apcu_dec(string $key, int $step = 1,  &$success = null, int $ttl = 0): int|false
apcu_delete( $key): array|bool
apcu_enabled(): bool
apcu_entry(string $key, callable $callback, int $ttl = 0): mixed
apcu_exists( $key): array|bool
apcu_fetch( $key,  &$success = null): mixed
apcu_inc(string $key, int $step = 1,  &$success = null, int $ttl = 0): int|false
apcu_key_info(string $key): ?array
apcu_sma_info(bool $limited = false): array|false
apcu_store( $key, mixed $value = ?, int $ttl = 0): array|bool
APCUIterator implements Iterator, Traversable
    public __construct( $search = null, int $format = APC_ITER_ALL, int $chunk_size = 0, int $list = APC_LIST_ACTIVE): none
    public rewind(): void
    public next(): void
    public valid(): bool
    public key(): string|int
    public current(): mixed
    public getTotalHits(): int
    public getTotalSize(): int
    public getTotalCount(): int
0 properties, 0 constants
APC_LIST_ACTIVE 1
APC_LIST_DELETED 2
APC_ITER_TYPE 1
APC_ITER_KEY 2
APC_ITER_VALUE 4
APC_ITER_NUM_HITS 8
APC_ITER_MTIME 16
APC_ITER_CTIME 32
APC_ITER_DTIME 64
APC_ITER_ATIME 128
APC_ITER_REFCOUNT 256
APC_ITER_MEM_SIZE 512
APC_ITER_TTL 1024
APC_ITER_NONE 0
APC_ITER_ALL 4294967295
apc.coredump_unmap 4
apc.enable_cli 4
apc.enabled 4
apc.entries_hint 4
apc.gc_ttl 4
apc.mmap_file_mask 4
apc.preload_path 4
apc.serializer 4
apc.shm_segments 4
apc.shm_size 4
apc.slam_defense 4
apc.smart 4
apc.ttl 4
apc.use_request_time 7
persistent
bool(true)
APCu Support => Enabled
MMAP Support => Enabled
Serialization Support => php
Directive => Local Value => Master Value
apc.coredump_unmap => Off => Off
apc.enabled => On => On
apc.entries_hint => 4096 => 4096
apc.gc_ttl => 3600 => 3600
apc.mmap_file_mask => no value => no value
apc.preload_path => no value => no value
apc.serializer => php => php
apc.shm_segments => 1 => 1
apc.slam_defense => Off => Off
apc.smart => 0 => 0
apc.ttl => 0 => 0
apc.use_request_time => Off => Off
