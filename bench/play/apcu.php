<?php // SPDX-License-Identifier: MIT
// What `run.sh` plays, with PHP's APCu in forked processes that share one segment. Prints the microseconds of all calls.
// Usage: apcu.php apart|one|counter|text WORKERS CALLS BYTES EVERY
[, $kind, $workers, $calls, $bytes, $every] = $argv;
$texts = [str_repeat('x', (int) $bytes), str_repeat('y', (int) $bytes), str_repeat('z', (int) $bytes)];
apcu_store('k', $kind === 'text' ? $texts[2] : 1);
$begin = hrtime(true);
for ($w = 0; $w < $workers; $w++) {
    if (pcntl_fork() === 0) {
        $stored = 0;
        for ($i = 0; $i < $calls; $i++) {
            if ($kind === 'text') {
                if ($every && $i % $every == $every - 1) {
                    apcu_store('k', $texts[$stored++ % 3]);
                } else {
                    $value = apcu_fetch('k');
                }
                continue;
            }
            if ($kind === 'counter') {
                apcu_inc('n');
                continue;
            }
            $key = $kind === 'one' ? 'k' : 'k' . $w . '.' . $i % 16;
            if ($i % 4 == 0) {
                apcu_store($key, $i);
            } elseif ($i % 4 == 2) {
                apcu_inc($kind === 'one' ? 'n' : 'n' . $w);
            } else {
                apcu_fetch($key);
            }
        }
        return; // an extension may make PHP continue after `exit`
    }
}
for ($w = 0; $w < $workers; $w++) {
    pcntl_wait($status);
}
printf("%.1f\n", (hrtime(true) - $begin) / 1e3);
