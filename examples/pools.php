<?php // SPDX-License-Identifier: MIT
require __DIR__ . '/../checks/pools/pool.php';
[$shop, $blog] = [new ApcuPools\Pool('shop'), new ApcuPools\Pool('blog')];
$shop->set('title', 'Corner 24');
echo $shop->get('title'), "\n";
echo $blog->get('title', 'untitled'), "\n";
$shop->setMultiple(['opened' => 1987, 24 => true], 3600);
echo serialize($shop->getMultiple(['title', '24', 'city'])), "\n";
echo apcu_fetch('{shop}title'), "\n";
$shop->clear();
var_dump($shop->has('title'));
