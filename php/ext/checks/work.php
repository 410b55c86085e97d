<?php // SPDX-License-Identifier: MIT

// Random calls whose values tell whose they are, for processes that may be killed at any moment. Each call of
// `work_once` is one or a few calls of the cache; it gives null, or what is wrong with a value that it found.

declare(strict_types=1);

/** A value that tells its key; of a few bytes or some thousands. */
function value_of(string $key): mixed
{
    $size = mt_rand(0, 3) === 0 ? mt_rand(0, 20000) : mt_rand(0, 300);
    $fill = str_repeat(chr(mt_rand(97, 122)), $size);
    return match (mt_rand(0, 2)) {
        0 => "$key:$fill",
        1 => ['key' => $key, 'fill' => $fill, 'sum' => crc32($fill)],
        2 => (object) ['key' => $key, 'fill' => $fill, 'more' => [1.5, null, $key], 'sum' => crc32($fill)],
    };
}

/** Null, or what is wrong with it. */
function fault_of(string $key, mixed $value): ?string
{
    if (is_string($value)) {
        $fill = substr($value, strlen($key) + 1);
        $is_good = str_starts_with($value, "$key:") && $fill === str_repeat($fill[0] ?? '', strlen($fill));
    } else {
        $value = (array) $value;
        $is_good = ($value['key'] ?? null) === $key && crc32($value['fill'] ?? '') === ($value['sum'] ?? null);
    }
    return $is_good ? null : "another value under $key: " . substr(serialize($value), 0, 80);
}

function work_once(int $keys = 500): ?string
{
    $key = 'k' . mt_rand(0, $keys - 1);
    switch (mt_rand(0, 15)) {
        case 0:
        case 1:
        case 2:
        case 3:
            apcu_store($key, value_of($key), mt_rand(0, 3));
            return null;
        case 4:
            apcu_add($key, value_of($key));
            return null;
        case 5:
            apcu_delete($key);
            return null;
        case 6:
            $count = apcu_inc('n' . mt_rand(0, 9));
            return is_int($count) || $count === false ? null : 'a counter is ' . serialize($count);
        case 7:
            apcu_cas('n' . mt_rand(0, 9), mt_rand(0, 100), mt_rand(0, 100));
            return null;
        case 8:
            $value = apcu_entry($key, fn () => value_of($key), 10);
            return fault_of($key, $value);
        case 9:
            foreach (new APCUIterator('/^k\d*' . mt_rand(0, 9) . '$/', APC_ITER_KEY | APC_ITER_VALUE, mt_rand(1, 20)) as $name => $row) {
                $fault = fault_of($name, $row['value']);
                if ($fault !== null) {
                    return "walk: $fault";
                }
            }
            return null;
        case 10:
            if (mt_rand(0, 200) === 0) {
                apcu_clear_cache();
            }
            apcu_cache_info(true);
            apcu_key_info($key);
            return null;
        default:
            $value = apcu_fetch($key, $is_there);
            return $is_there ? fault_of($key, $value) : null;
    }
}

/** How often the cache was recreated after a kill; null if phpinfo() does not say. */
function times_remade(): ?int
{
    ob_start();
    (new ReflectionExtension('apcu'))->info();
    return preg_match('/Cache Recreated After Crash(?:<[^>]*>| |=>)*(\d+)/', ob_get_clean(), $found) ? (int) $found[1] : null;
}
