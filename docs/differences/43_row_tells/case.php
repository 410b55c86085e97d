<?php // SPDX-License-Identifier: MIT
apcu_store('a', 1);
echo implode(' ', array_keys(apcu_key_info('a'))), "\n";
