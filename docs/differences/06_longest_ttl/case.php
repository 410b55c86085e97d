<?php // SPDX-License-Identifier: MIT
foreach ([2147483647, 2147483648, 4294967295, 4294967296, -1] as $ttl) {
    apcu_store('a', 1, $ttl);
    var_dump(apcu_exists('a'));
}
