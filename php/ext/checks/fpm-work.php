<?php // SPDX-License-Identifier: MIT

// The work of a worker of php-fpm: some five hundred calls (work.php), and whether all of them had good replies.
// With `?recreated` it returns how often the cache was recreated.

declare(strict_types=1);

require __DIR__ . '/work.php';

header('Content-Type: text/plain');
if (isset($_GET['recreated'])) {
    exit('ok ' . (times_remade() ?? 'none'));
}
mt_srand();
for ($i = 0; $i < 500; $i++) {
    $fault = work_once();
    if ($fault !== null) {
        exit($fault);
    }
}
echo 'ok';
