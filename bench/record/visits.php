<?php // SPDX-License-Identifier: MIT

// php visits.php URL COUNT SEED: makes COUNT visits to the shop in site/. Few products are requested often, most of
// them seldom.

declare(strict_types=1);

[, $url, $count, $seed] = $argv;
mt_srand((int) $seed);
for ($i = 0; $i < (int) $count; $i++) {
    $product = (int) (3000 * (mt_rand() / mt_getrandmax()) ** 3);
    $visitor = mt_rand(1, 400);
    if (file_get_contents("$url/?product=$product&visitor=$visitor") === false) {
        exit(1);
    }
}
