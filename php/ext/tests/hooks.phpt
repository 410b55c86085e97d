--TEST--
An exception in a hook of an object leaves the cache as it was
--INI--
apc.enabled=1
apc.enable_cli=1
error_reporting=E_ALL & ~E_DEPRECATED
html_errors=0
--SKIPIF--
<?php
if (!function_exists('pcntl_fork') || !function_exists('posix_kill')) die('skip pcntl and posix are needed');
?>
--FILE--
<?php
require __DIR__ . '/common.inc';

set_error_handler(function (int $level, string $message): bool {
    echo "warning: $message\n";
    return true;
});

class Unwilling
{
    public function __serialize(): array
    {
        throw new RuntimeException('not to be stored');
    }
}
class Asleep
{
    public function __sleep()
    {
        throw new RuntimeException('not to sleep');
    }
}
class Unreadable
{
    public $value = 1;
    public function __unserialize(array $data): void
    {
        throw new RuntimeException('not to be read');
    }
}
class Old implements Serializable
{
    public function serialize()
    {
        return apcu_fetch('null') === false ? 'text' : null;
    }
    public function unserialize($text)
    {
        throw new RuntimeException("not to be read: $text");
    }
}

function attempt(string $name, callable $what): void
{
    try {
        $answer = json_encode($what());
        echo "$name: $answer\n";
    } catch (Throwable $thrown) {
        echo $name, ': ', get_class($thrown), ' ', $thrown->getMessage(), "\n";
    }
}

apcu_store('a', 'before');
attempt('store', fn () => apcu_store('a', [1, new Unwilling()]));
attempt('sleep', fn () => apcu_store('a', new Asleep()));
attempt('closure', fn () => apcu_store('a', fn () => 1));
attempt('add', fn () => apcu_add('b', new Unwilling()));
attempt('many', fn () => apcu_store(['c' => 1, 'd' => new Unwilling(), 'e' => 2]));
attempt('entry', fn () => apcu_entry('f', fn () => new Unwilling()));
attempt('there', fn () => [apcu_fetch('a'), apcu_exists('b'), apcu_exists('c'), apcu_exists('d'), apcu_exists('f')]);
apcu_store('g', ['x', new Unreadable(), 'y']);
apcu_store('h', new Old());
attempt('fetch', fn () => apcu_fetch('g'));
attempt('fetch again', fn () => apcu_fetch('g'));
attempt('fetch old', fn () => apcu_fetch('h'));
attempt('fetch many', fn () => apcu_fetch(['a', 'g', 'h']));
attempt('entry there', fn () => apcu_entry('g', fn () => 1));
attempt('walk', function () {
    foreach (new APCUIterator('/^g$/') as $row) {
        echo "a row\n";
    }
});
attempt('still there', fn () => array_keys(apcu_exists(['g', 'h'])));
attempt('delete', fn () => [apcu_delete('g'), apcu_exists('g')]);
echo is_free() ? "free\n" : "held\n";
?>
--EXPECT--
warning: Old implements the Serializable interface, which is deprecated. Implement __serialize() and __unserialize() instead (or in addition, if support for old PHP versions is necessary)
store: RuntimeException not to be stored
sleep: RuntimeException not to sleep
closure: Exception Serialization of 'Closure' is not allowed
add: RuntimeException not to be stored
many: RuntimeException not to be stored
entry: RuntimeException not to be stored
there: ["before",false,true,false,false]
fetch: RuntimeException not to be read
fetch again: RuntimeException not to be read
fetch old: RuntimeException not to be read: text
fetch many: RuntimeException not to be read
entry there: RuntimeException not to be read
walk: RuntimeException not to be read
still there: ["g","h"]
delete: [true,false]
free
