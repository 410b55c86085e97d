<?php // SPDX-License-Identifier: MIT
echo serialize(apcu_store('a', 1)), "\n";
foreach (new APCUIterator('/(/') as $key => $row) echo $key, "\n";
