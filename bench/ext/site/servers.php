<?php // SPDX-License-Identifier: MIT

// What servers.sh asks a server for: `?product=N` tells who loaded a product's row, `&change` stores another first
// and `&delete` deletes it, here and there; `?times` tells microseconds of a hit here, a hit there and a miss,
// medians of a hundred.

declare(strict_types=1);

require __DIR__ . '/products.php';

/** As from a database; it takes no time, so that a miss is the caches' own time. */
function load(int $number): array
{
    return ['by' => getenv('SERVER'), 'at' => hrtime(true), 'text' => str_repeat("<p>Product $number is in stock.</p>\n", 300)];
}

/** The median time of a call, in microseconds; what comes before each is not counted. */
function median(callable $before, callable $call): float
{
    $times = [];
    for ($i = 0; $i < 100; $i++) {
        $before();
        $begun = hrtime(true);
        $call();
        $times[] = hrtime(true) - $begun;
    }
    sort($times);
    return $times[50] / 1000;
}

header('Content-Type: text/plain');
if (isset($_GET['times'])) {
    $get = fn (): array => product(7, 'load');
    $get();
    printf("%.1f %.1f %.1f\n", median(fn () => null, $get), median('apcu_clear_cache', $get),
        median(fn () => products()->delete('product.7'), $get));
    exit;
}
$number = (int) $_GET['product'];
if (isset($_GET['change'])) {
    $item = products()->getItem("product.$number");
    products()->save($item->set(['by' => getenv('SERVER') . ', changed'] + load($number)));
}
if (isset($_GET['delete'])) {
    products()->delete("product.$number");
}
$loads = 0;
$row = product($number, function (int $number) use (&$loads): array {
    $loads++;
    return load($number);
});
echo $row['by'], $loads > 0 ? ', now' : '', "\n";
