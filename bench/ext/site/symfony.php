<?php // SPDX-License-Identifier: MIT

// A page whose parts are kept by Symfony's cache over APCu: settings and a product, each made if it does not exist.

declare(strict_types=1);

require_once 'Symfony/Component/Cache/autoload.php';

use Symfony\Component\Cache\Adapter\ApcuAdapter;
use Symfony\Contracts\Cache\ItemInterface;

$cache = new ApcuAdapter('shop');
$product = (int) ($_GET['product'] ?? 1);
$settings = $cache->get('settings', function (ItemInterface $item): array {
    $item->expiresAfter(30);
    return ['name' => 'Shop', 'currency' => 'EUR', 'pages' => range(1, 20)];
});
$page = $cache->get("product.$product", function (ItemInterface $item) use ($product): array {
    $item->expiresAfter(600);
    return ['title' => "Product $product", 'prices' => range($product, $product + 50),
        'text' => str_repeat("<p>Product $product is in stock.</p>\n", 50 + $product * 37 % 400)];
});
echo "<title>$settings[name]: $page[title]</title>\n", array_sum($page['prices']), ' ', $settings['currency'], "\n", $page['text'];
