<?php // SPDX-License-Identifier: MIT
apcu_store("\u{e9}", 1);
foreach (['/^.$/', '/^..$/', "/^\u{c9}\$/i"] as $pattern)
    echo (new APCUIterator($pattern))->getTotalCount(), "\n";
