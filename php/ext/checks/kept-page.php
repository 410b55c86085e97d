<?php // SPDX-License-Identifier: MIT

// A page whose values say whether they are whole: each is looked at when it is fetched, and again when the page ends.

declare(strict_types=1);

function made(int $seed): array
{
    $all = [];
    for ($i = 0; $i < 60; $i++) {
        $all["k$seed.$i"] = ['n' => $seed, 's' => str_repeat(chr(97 + $seed % 26), 20 + $i), 'l' => range($seed, $seed + 10)];
    }
    return $all + ['sum' => crc32(serialize($all))];
}

function is_whole(array|string $value): bool
{
    if (is_string($value)) {
        return $value === str_repeat($value[0], strlen($value));
    }
    $sum = $value['sum'];
    unset($value['sum']);
    return crc32(serialize($value)) === $sum;
}

$faults = [];
$held = [];
for ($i = 0; $i < 20; $i++) {
    $key = 'value ' . mt_rand(0, 9);
    switch (true) {
        case mt_rand(0, 99) < 12:
            apcu_store($key, mt_rand(0, 3) ? made(mt_rand(0, 1000)) : str_repeat(chr(mt_rand(97, 122)), mt_rand(65536, 70000)));
            break;
        case mt_rand(0, 99) < 2:
            apcu_delete($key);
            break;
        case mt_rand(0, 199) === 0:
            apcu_clear_cache();
            break;
        case mt_rand(0, 99) < 5:
            apcu_store('other ' . mt_rand(0, 500), str_repeat('q', mt_rand(10, 20000)));
            break;
        default:
            $value = apcu_fetch($key);
            if ($value !== false) {
                $held[] = $value;
                $faults[] = is_whole($value);
            }
    }
}
$most = (int) ini_get('apc.kept_size') * 1024 * 1024;
$info = apcu_cache_info(true);
register_shutdown_function(function () use ($held, $faults, $info, $most) {
    foreach ($held as $value) {
        $faults[] = is_whole($value);
    }
    if (in_array(false, $faults, true) || $info['kept_size'] > $most) {
        echo 'a wrong value';
        return;
    }
    echo 'ok ', count($held), ' ', getmypid(), ' ', $info['kept_hits'];
});
