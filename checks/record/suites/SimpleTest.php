<?php // SPDX-License-Identifier: MIT

declare(strict_types=1);

use Symfony\Component\Cache\Adapter\ApcuAdapter;
use Symfony\Component\Cache\Psr16Cache;

/** The PSR-16 suite over APCu. */
final class SimpleTest extends Cache\IntegrationTests\SimpleCacheTest
{
    public function createSimpleCache()
    {
        return new Psr16Cache(new ApcuAdapter('simple'));
    }
}
