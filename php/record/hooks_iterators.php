<?php // SPDX-License-Identifier: MIT

// Hooks of the class APCUIterator.

declare(strict_types=1);

namespace ApcuRecord;

\uopz_set_hook('APCUIterator', '__construct', function (mixed ...$args): void {
    Iterators::made($this, $args);
});
foreach (['getTotalCount', 'getTotalHits', 'getTotalSize'] as $method) {
    \uopz_set_hook('APCUIterator', $method, function (): void {
        Iterators::totalled($this);
    });
}
