--TEST--
Kept values: a worker returns them in later requests, and evicts the one unused for longest when a request has ended
--INI--
apc.enabled=1
apc.enable_cli=1
--SKIPIF--
<?php
require __DIR__ . '/common.inc';
if (!is_ours()) die('skip APCu keeps no values');
if (PHP_ZTS) die('skip nothing is kept if PHP has threads');
?>
--FILE--
<?php
require __DIR__ . '/common.inc';

$folder = sys_get_temp_dir() . '/kept-' . getmypid();
mkdir($folder, 0700);
file_put_contents("$folder/index.php", <<<'PHP'
<?php
// The words of a request: NAME stores a value, +NAME fetches it.
$value = fn (string $name): array => [$name, array_map(fn ($i) => "$name $i", range(1, 400)), 'last'];
register_shutdown_function(function () use (&$fetched, $value) {
    foreach ($fetched ?? [] as [$name, $it]) {
        echo $it === $value($name) ? '' : " $name differs at the end";
    }
});
class Holder
{
    public function __construct(public array $it, public array $same)
    {
    }
    public function __destruct()
    {
        echo $this->it === $this->same ? '' : ' differs in a destructor';
    }
}
foreach (explode(' ', urldecode($_SERVER['QUERY_STRING'])) as $word) {
    $name = ltrim($word, '+');
    if ($name === $word) {
        apcu_store($name, $value($name));
        continue;
    }
    $it = apcu_fetch($name);
    echo $it === $value($name) ? '' : " $name differs";
    $fetched[] = [$name, $it];
    $holders[] = new Holder($it, $value($name));
}
$info = apcu_cache_info(true);
echo $info['kept_entries'], ' kept, ', $info['kept_hits'], ' hits, ', round($info['kept_size'] / 1000), ' KB';
PHP);
$words = [getenv('TEST_PHP_EXECUTABLE') ?: PHP_BINARY, '-n', '-d', 'extension=' . extension_file(), '-d', 'apc.enable_cli=1',
    '-d', 'apc.kept_size=50K', '-S', '127.0.0.1:0', '-t', $folder];
$server = proc_open($words, [1 => ['file', "$folder/log", 'w'], 2 => ['redirect', 1]], $pipes);
for ($i = 0; $i < 10 * SECONDS && !preg_match('~http://(\S+)\) started~', file_get_contents("$folder/log"), $found); $i++) {
    usleep(100000);
}
foreach ([
    'a b c', '+a', '+a', '+a +b', '+b', '+a +b',
    // There is no room for c.
    '+c +c', '+c +c +c', '+c',
    // b was unused for longest.
    '+a', '+b', '+b',
    // A value of another store replaces one, and both are memory until the next request.
    'a +a +a +a', '+a',
    // More than there is room for, in each request.
    '+a +b +c', '+a +b +c', '+a +b +c',
] as $request) {
    echo "$request: ", file_get_contents("http://$found[1]/?" . urlencode($request)), "\n";
}
proc_terminate($server);
proc_close($server);
array_map('unlink', glob("$folder/*"));
rmdir($folder);
?>
--EXPECT--
a b c: 0 kept, 0 hits, 0 KB
+a: 0 kept, 0 hits, 0 KB
+a: 1 kept, 0 hits, 20 KB
+a +b: 1 kept, 1 hits, 20 KB
+b: 2 kept, 1 hits, 39 KB
+a +b: 2 kept, 3 hits, 39 KB
+c +c: 2 kept, 3 hits, 39 KB
+c +c +c: 2 kept, 5 hits, 39 KB
+c: 2 kept, 6 hits, 39 KB
+a: 2 kept, 6 hits, 39 KB
+b: 2 kept, 6 hits, 39 KB
+b: 2 kept, 7 hits, 39 KB
a +a +a +a: 2 kept, 7 hits, 39 KB
+a: 2 kept, 7 hits, 39 KB
+a +b +c: 2 kept, 9 hits, 39 KB
+a +b +c: 2 kept, 11 hits, 39 KB
+a +b +c: 2 kept, 13 hits, 39 KB
