<?php // SPDX-License-Identifier: MIT

// The replies of workers to hours.php: `?key=K` returns the value under a key, `?key=K&number=N` stores one that contains
// both, and `?recreated` returns how often the cache was recreated after a kill.

declare(strict_types=1);

/** The value of a key and a number: an array or a text, of a few bytes or of some thousands. */
function value_of_number(string $key, int $number): array|string
{
    $size = $number % 4 === 0 ? $number * 7919 % 20000 : $number * 7919 % 300;
    $text = "$key:$number:" . substr(str_repeat(md5("$key:$number"), intdiv($size, 32) + 1), 0, $size);
    return $number % 3 === 0 ? ['key' => $key, 'number' => $number, 'text' => $text] : $text;
}

/** The number in the text of a reply, if it is a whole value of this key; otherwise null. */
function number_in(string $key, string $reply): ?int
{
    $value = @unserialize($reply, ['allowed_classes' => false]);
    $number = is_array($value) ? ($value['number'] ?? null) : (is_string($value) ? (int) (explode(':', $value, 3)[1] ?? 0) : null);
    return is_int($number) && $value === value_of_number($key, $number) ? $number : null;
}

if (basename($_SERVER['SCRIPT_FILENAME']) !== basename(__FILE__)) {
    return;
}
header('Content-Type: text/plain');

/** How often the cache was recreated after a kill, and how often rows were dropped to make room. */
function drops(): string
{
    ob_start();
    (new ReflectionExtension('apcu'))->info();
    preg_match('/Cache Recreated After Crash(?:<[^>]*>| |=>)*(\d+)/', ob_get_clean(), $found);
    return ($found[1] ?? 0) . ' ' . apcu_cache_info(true)['expunges'];
}

if (isset($_GET['recreated'])) {
    exit(explode(' ', drops())[0]);
}
$key = (string) $_GET['key'];
if (isset($_GET['number'])) {
    // What is dropped from here on is counted after this.
    $drops = drops();
    $number = (int) $_GET['number'];
    exit(apcu_store($key, value_of_number($key, $number)) ? "stored $drops" : 'full');
}
$value = apcu_fetch($key, $is_there);
exit($is_there ? serialize($value) : 'none ' . drops());
