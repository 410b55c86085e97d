<?php // SPDX-License-Identifier: MIT

declare(strict_types=1);

use Symfony\Component\Cache\Adapter\ApcuAdapter;

/** The PSR-6 suite over APCu. */
final class PoolTest extends Cache\IntegrationTests\CachePoolTest
{
    public function createCachePool()
    {
        return new ApcuAdapter('pool');
    }
}
