<?php // SPDX-License-Identifier: MIT

declare(strict_types=1);

use Symfony\Component\Cache\Adapter\ApcuAdapter;
use Symfony\Component\Cache\Adapter\TagAwareAdapter;

/** The PSR-6 suite over a pool with tags, and tags. */
final class TagAwareTest extends Cache\IntegrationTests\CachePoolTest
{
    public function createCachePool()
    {
        return new TagAwareAdapter(new ApcuAdapter('tagged'), new ApcuAdapter('tags'), 0);
    }

    public function testInvalidatedTags(): void
    {
        $pool = $this->createCachePool();
        foreach (['a' => ['red'], 'b' => ['red', 'blue'], 'c' => ['blue'], 'd' => []] as $key => $tags) {
            $item = $pool->getItem($key)->set("value of $key");
            $pool->save($item->tag($tags));
        }
        $this->assertTrue($pool->invalidateTags(['red']));
        $there = array_map(fn (string $key): bool => $pool->getItem($key)->isHit(), ['a', 'b', 'c', 'd']);
        $this->assertSame([false, false, true, true], $there);
    }

    public function testValueThatIsMadeOnce(): void
    {
        $pool = $this->createCachePool();
        $make = fn ($item) => $item->expiresAfter(60)->tag('made') ? ['made', 1] : null;
        $this->assertSame(['made', 1], $pool->get('once', $make));
        $this->assertSame(['made', 1], $pool->get('once', fn () => 'again'));
        $pool->invalidateTags(['made']);
        $this->assertSame('again', $pool->get('once', fn () => 'again'));
    }
}
