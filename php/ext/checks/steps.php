<?php // SPDX-License-Identifier: MIT

// A process is killed at an instruction of a call, one after another, and each time the next process has to find the
// cache as it was before the call, as it is after it, or empty; and has to be able to use it. Each instruction from the
// call's beginning to its end has its turn, or one of every few.
// php steps.php STEPS CALL POINTS
// STEPS is the built steps.c, and POINTS at how many places of the call a process dies; 0: at each, or
// a thousand times if the call is long.

declare(strict_types=1);

const PATIENCE = 20;
/** Instructions of a call that is stepped through. */
const MOST = 20000;

/** The rows before each call; with a filler of this many bytes. */
function before(int $filler = 0): array
{
    return ['text' => str_repeat('a', 300), 'long' => str_repeat('l', 6000), 'list' => [1, 'two' => 2.5, 'x'], 'number' => 5, 'other' => 'stays', 'null' => null]
        + ($filler > 0 ? ['filler' => str_repeat('f', $filler)] : []);
}

/** What each call does, and the states between which it may leave the cache: before it, after each of its events. */
function calls(): array
{
    $before = before();
    $new = str_repeat('b', 700);
    $without = fn (string ...$keys): array => array_diff_key($before, array_flip($keys));
    return [
        'store over' => [fn () => apcu_store('text', $new), [['text' => $new] + $before]],
        'store new' => [fn () => apcu_store('more', [$new, 1]), [['more' => [$new, 1]] + $before]],
        'store two' => [fn () => apcu_store(['text' => 1, 'more' => 2]), [['text' => 1] + $before, ['text' => 1, 'more' => 2] + $before]],
        'store with no room' => [fn () => apcu_store('big', str_repeat('c', 6000)), [['big' => str_repeat('c', 6000)]]],
        'add' => [fn () => apcu_add('more', 1), [['more' => 1] + $before]],
        'add, there' => [fn () => apcu_add('text', 1), []],
        'fetch' => [fn () => apcu_fetch(['text', 'list', 'none']), []],
        'fetch long' => [fn () => apcu_fetch('long'), []],
        'exists' => [fn () => apcu_exists(['text', 'none']), []],
        'delete' => [fn () => apcu_delete('text'), [$without('text')]],
        'delete found' => [fn () => apcu_delete(new APCUIterator('/^(text|list)$/', APC_ITER_KEY, 1)), [$without('text'), $without('list'), $without('text', 'list')]],
        'inc' => [fn () => apcu_inc('number'), [['number' => 6] + $before]],
        'inc new' => [fn () => apcu_inc('more', 3), [['more' => 3] + $before]],
        'cas' => [fn () => apcu_cas('number', 5, 9), [['number' => 9] + $before]],
        'entry' => [fn () => apcu_entry('more', fn () => 7), [['more' => 7] + $before]],
        'clear' => [fn () => apcu_clear_cache(), [[]]],
        'walk' => [fn () => iterator_to_array(new APCUIterator(null, APC_ITER_ALL, 2)), []],
        'told' => [fn () => [apcu_cache_info(), apcu_sma_info(), apcu_key_info('text')], []],
    ];
}

function fill(int $filler): void
{
    apcu_clear_cache();
    apcu_store(before($filler));
}

/** A child that has stopped itself before its call, and will do it after the call. */
function stopped(callable $call): int
{
    $id = pcntl_fork();
    if ($id === 0) {
        posix_kill(getmypid(), SIGSTOP);
        $call();
        posix_kill(getmypid(), SIGSTOP);
        exit(0);
    }
    pcntl_waitpid($id, $status, WUNTRACED);
    return $id;
}

function told_by(string $steps, int $id, int $count): int
{
    exec(escapeshellarg($steps) . " $id $count", $told, $status);
    posix_kill($id, SIGKILL);
    pcntl_waitpid($id, $end);
    if ($status !== 0) {
        echo "the process was not stepped through\n";
        exit(1);
    }
    return (int) ($told[0] ?? 0);
}

/** What a process finds: 0 as before, 1 as after, 2 empty, 3 something else, 4 it can't be used; 5 no answer came. */
function found(array $after, int $filler): int
{
    $id = pcntl_fork();
    if ($id === 0) {
        $rows = [];
        foreach (new APCUIterator(null, APC_ITER_KEY | APC_ITER_VALUE) as $key => $row) {
            $rows[$key] = $row['value'];
        }
        ksort($rows);
        $is = 3;
        foreach ([before($filler), ...$after, []] as $i => $wanted) {
            ksort($wanted);
            if ($rows === $wanted) {
                $is = $i === 0 ? 0 : ($wanted === [] ? 2 : 1);
                break;
            }
        }
        // It goes on: rows, counts and gaps hold together.
        apcu_delete('filler');
        $used = true;
        for ($i = 0; $i < 20; $i++) {
            $used = $used && apcu_store("use $i", str_repeat("$i", 500)) && apcu_fetch("use $i") === str_repeat("$i", 500);
        }
        $told = apcu_cache_info();
        $memory = apcu_sma_info();
        $used = $used && $told['num_entries'] === count($told['cache_list'])
            && $told['mem_size'] == array_sum(array_column($told['cache_list'], 'mem_size'))
            && $memory['avail_mem'] == array_sum(array_column($memory['block_lists'][0], 'size'))
            && apcu_entry('use entry', fn () => 5) === 5;
        exit($used ? $is : 4);
    }
    for ($end = microtime(true) + PATIENCE; microtime(true) < $end; usleep(500)) {
        if (pcntl_waitpid($id, $status, WNOHANG) === $id) {
            return pcntl_wifexited($status) ? pcntl_wexitstatus($status) : 4;
        }
    }
    posix_kill($id, SIGKILL);
    pcntl_waitpid($id, $status);
    return 5;
}

[, $steps, $name, $points] = $argv;
[$call, $after] = calls()[$name] ?? exit("no call $name\n");
fill(0);
// Less is free than that call needs.
$filler = $name === 'store with no room' ? (int) apcu_sma_info(true)['avail_mem'] - 5000 : 0;
fill($filler);
$call();
fill($filler);
// A long call is not stepped through, but killed at moments of its time.
$all = told_by($steps, stopped($call), MOST);
$took = 0;
if ($all === 0) {
    fill($filler);
    $begun = hrtime(true);
    $call();
    $took = intdiv(hrtime(true) - $begun, 1000);
} elseif ($all < 100) {
    echo "$name: the call was not stepped through\n";
    exit(1);
}
$points = (int) $points > 0 ? (int) $points : ($all ?: 1000);
$unit = $all > 0 ? 'instructions' : 'microseconds';
$ends = array_fill(0, 6, 0);
for ($i = 0; $i < $points; $i++) {
    fill($filler);
    if ($all > 0) {
        // One place in each part of the call, at random.
        $from = intdiv($all * $i, $points);
        $at = mt_rand($from, max($from, intdiv($all * ($i + 1), $points) - 1));
        told_by($steps, stopped($call), $at);
    } else {
        $at = mt_rand(0, $took);
        $id = stopped($call);
        posix_kill($id, SIGCONT);
        usleep($at);
        posix_kill($id, SIGKILL);
        pcntl_waitpid($id, $status);
    }
    $end = found($after, $filler);
    $ends[$end]++;
    if ($end > 2) {
        printf("%s: killed after %d of %d %s: %s\n", $name, $at, $all ?: $took, $unit, [3 => 'another state', 4 => 'it cannot be used', 5 => 'no reply'][$end]);
    }
    if ($end === 5) {
        exit(2);
    }
}
printf("%-20s %7d %-12s died %5d times: as before %5d, after %5d, empty %5d\n", $name, $all ?: $took, "$unit,", $points, ...array_slice($ends, 0, 3));
exit($ends[3] + $ends[4] > 0 ? 1 : 0);
