<?php // SPDX-License-Identifier: MIT
foreach (['aa', 'ab'] as $key) apcu_store($key, 1);
foreach (new APCUIterator('/^(.)\1$/') as $key => $row) echo $key, "\n";
