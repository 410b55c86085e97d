<?php // SPDX-License-Identifier: MIT
// The calls of a generated run, with PHP's APCu in forked processes that share one segment: each draws its numbers
// first, and then all make their calls. Prints the counters, a line each as `apcu_run --generate` prints them, and last
// the nanoseconds a call, from the first start to the last end.
// With the word `script` after them it makes no call, and prints the calls as a script.
// Usage: apcu.php SEED WORKERS CALLS [script]
[, $seed, $workers, $calls] = array_map('intval', $argv);

// The numbers of a worker: the upper 31 bits of states of 64 bits, each the one before times a constant and another one
// more. A product of halves of the state with 16 bits of the constant fits PHP's integers.
function numbers(int $seed, int $worker, int $calls): array
{
    $low = ($seed & 0xFFFFFFFF) + $worker;
    $high = (($seed >> 32) + ($low >> 32)) & 0xFFFFFFFF;
    $low &= 0xFFFFFFFF;
    $drawn = [];
    for ($i = 0; $i < $calls; $i++) {
        // 6364136223846793005 is 0x5851F42D4C957F2D, 1442695040888963407 is 0x14057B7EF767814F.
        $first = $low * 0x7F2D + 0xF767814F;
        $second = $low * 0x4C95;
        $sum = $first + (($second & 0xFFFF) << 16);
        $up = ($sum >> 32) + ($second >> 16) + 0x14057B7E;
        $up += $high * 0x7F2D + ((($high * 0x4C95) & 0xFFFF) << 16);
        $up += $low * 0xF42D + ((($low * 0x5851) & 0xFFFF) << 16);
        $low = $sum & 0xFFFFFFFF;
        $high = $up & 0xFFFFFFFF;
        $drawn[] = $high >> 1;
    }
    return $drawn;
}

// A line of a script.
function line(string $word, ...$args): string
{
    return implode(' ', [$word, ...array_map('serialize', $args)]) . "\n";
}

function call_of(int $r, int $worker, int $workers): string
{
    return match ($r & 3) {
        3 => line('apcu_inc', 'c' . ($r >> 2 & 7), ($r >> 5) % 100),
        2 => line('apcu_store', "p$worker." . ($r >> 2 & 15), str_repeat('x', ($r >> 6) % 200)),
        default => line('apcu_fetch', 'p' . ($r >> 6) % $workers . '.' . ($r >> 2 & 15)),
    };
}

if (($argv[4] ?? '') === 'script') {
    for ($w = 0; $w < $workers; $w++) {
        echo "worker\n";
        foreach (numbers($seed, $w, $calls) as $r) {
            echo call_of($r, $w, $workers);
        }
    }
    return;
}

// All begin at once: each waits until the last has drawn its numbers.
apcu_store('drawn', 0);
for ($w = 0; $w < $workers; $w++) {
    if (pcntl_fork() === 0) {
        $drawn = numbers($seed, $w, $calls);
        $texts = [];
        for ($len = 0; $len < 200; $len++) {
            $texts[] = str_repeat('x', $len);
        }
        $own = "p$w.";
        apcu_inc('drawn');
        while (apcu_fetch('drawn') < $workers) {
            usleep(200);
        }
        $begin = hrtime(true);
        foreach ($drawn as $r) {
            switch ($r & 3) {
                case 3:
                    apcu_inc('c' . ($r >> 2 & 7), ($r >> 5) % 100);
                    break;
                case 2:
                    apcu_store($own . ($r >> 2 & 15), $texts[($r >> 6) % 200]);
                    break;
                default:
                    apcu_fetch('p' . ($r >> 6) % $workers . '.' . ($r >> 2 & 15));
            }
        }
        apcu_store("begun$w", $begin);
        apcu_store("ended$w", hrtime(true));
        return; // an extension may make PHP continue after `exit`
    }
}
for ($w = 0; $w < $workers; $w++) {
    pcntl_wait($status);
}
for ($n = 0; $n < 8; $n++) {
    echo "counter $n ", (int) apcu_fetch("c$n"), "\n";
}
$begun = PHP_INT_MAX;
$ended = 0;
for ($w = 0; $w < $workers; $w++) {
    $begun = min($begun, apcu_fetch("begun$w"));
    $ended = max($ended, apcu_fetch("ended$w"));
}
printf("%.1f\n", ($ended - $begun) / max($workers * $calls, 1));
