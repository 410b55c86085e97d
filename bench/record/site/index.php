<?php // SPDX-License-Identifier: MIT

// A small shop for PHP's own server, which keeps pages, counters, settings and sessions in APCu:
// php -S localhost:8000 -t site

declare(strict_types=1);

function rendered(int $product): string
{
    return str_repeat("<p>Product $product is in stock.</p>\n", 50 + $product * 37 % 400);
}

function settings(): array
{
    $settings = apcu_fetch('settings', $found);
    if (!$found) {
        $settings = ['name' => 'Shop', 'currency' => 'EUR', 'pages' => range(1, 20)];
        apcu_store('settings', $settings, 30);
    }
    return $settings;
}

function visit(string $visitor, int $product): void
{
    $session = apcu_fetch("session:$visitor") ?: ['seen' => [], 'since' => time()];
    $session['seen'][$product] = ($session['seen'][$product] ?? 0) + 1;
    apcu_store("session:$visitor", $session, 1200);
}

$product = (int) ($_GET['product'] ?? 1);
visit((string) ($_GET['visitor'] ?? 'nobody'), $product);
apcu_inc("views:$product");
echo '<title>' . settings()['name'] . "</title>\n";
echo apcu_entry("page:$product", fn (): string => rendered($product), 600);
