<?php // SPDX-License-Identifier: MIT
foreach (['a', 'b', 'c'] as $key) apcu_store($key, 1);
foreach (new APCUIterator(null, APC_ITER_VALUE, 1) as $key => $row) {
    echo $key, ' ', $row['value'], "\n";
    foreach (['b', 'c'] as $other) apcu_store($other, 7);
}
