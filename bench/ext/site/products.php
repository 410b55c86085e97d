<?php // SPDX-License-Identifier: MIT

// A cache of several servers: this server's rows in shared memory, for ten seconds, and all servers' rows in Redis,
// for an hour.

declare(strict_types=1);

require_once 'Symfony/Component/Cache/autoload.php';

use Symfony\Component\Cache\Adapter\{ApcuAdapter, ChainAdapter, RedisAdapter};

function products(): ChainAdapter
{
    static $cache;
    // Lazy: a hit here opens no connection.
    return $cache ??= new ChainAdapter([
        new ApcuAdapter('shop', (int) (getenv('HERE') ?: 10)),
        new RedisAdapter(RedisAdapter::createConnection(getenv('REDIS') ?: 'redis://localhost', ['lazy' => true]), 'shop', 3600),
    ]);
}

function product(int $number, callable $load): array
{
    return products()->get("product.$number", fn (): array => $load($number));
}
