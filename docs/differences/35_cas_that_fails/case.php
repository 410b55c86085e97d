<?php // SPDX-License-Identifier: MIT
apcu_store('a', 1);
sleep(2);
var_dump(apcu_cas('a', 7, 8));
$row = apcu_key_info('a');
var_dump($row['mtime'] > $row['creation_time']);
