<?php // SPDX-License-Identifier: MIT

declare(strict_types=1);

use Symfony\Component\Cache\Adapter\ApcuAdapter;
use Symfony\Component\Cache\Adapter\ProxyAdapter;

/** The PSR-6 suite over a part of a versioned pool. */
final class NamespacedTest extends Cache\IntegrationTests\CachePoolTest
{
    public function createCachePool()
    {
        return new ProxyAdapter(new ApcuAdapter('app', 0, 'v1'), 'part');
    }
}
