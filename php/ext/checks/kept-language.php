<?php // SPDX-License-Identifier: MIT

// The language's ways to write, over kept values: each in a process of its own, once with a value that was fetched
// before and once with a new fetch. Neither the value nor the row changes, also not after the shutdown functions,
// destructors and output callbacks of the request.
// php kept-language.php FOLDER, an empty folder to write to; its status is 1 if a value changed or a process died.

declare(strict_types=0);

require __DIR__ . '/kept-values.php';

die_unless_read_only();
$folder = $argv[1];
file_put_contents("$folder/included.php", '<?php return __FILE__;');
$value = [
    'b' => 2, 'a' => 1, 'list' => [3, 1, 2], 'map' => ['x' => 'y', 'kk' => ['deep' => [1]]], 'name' => 'SplStack', 'function' => 'strtoupper',
    'file' => "$folder/included.php", 'variable' => 'dynamic', 'text' => "h\u{e9}llo", 'constant' => 'FETCHED', 'class' => 'Named', 'zone' => 'UTC',
    'environment' => 'KEPT=1', 'pattern' => '/h.*o/u', 'locale' => 'C.UTF-8', 'folder' => $folder, 'pad' => str_repeat('p', 300),
];
$long = str_repeat('long text ', 10000);
kept('value', $value);
kept('long', $long);

class Holder
{
    public $any;
    public array $array = [];
    public ?string $string = null;
    public static $static;
}
class Named
{
    public static function seven(): int
    {
        return 7;
    }
}
class Late
{
    public function __construct(public array $it, public array $same)
    {
    }
    public function __destruct()
    {
        if ($this->it !== $this->same) {
            fwrite(STDERR, "a value differs in a destructor\n");
        }
        $this->it['a'] = 2;
    }
}
function change_each(array &$all): void
{
    foreach ($all as $key => $member) {
        if (is_array($all[$key])) {
            $all[$key][] = 1;
        }
    }
}
$fetch = fn (string $key = 'value') => apcu_fetch($key);

$ways = [
    'members' => function ($it) {
        $it['list'][] = 4;
        $it['map']['kk']['deep'][0] = 'n';
        unset($it['a']);
        $it['map'] += ['z' => 1];
        $it['list'] = [...$it['list'], 4];
        $it['b']++;
        $it['text'] ??= 1;
        $it['absent'] ??= [];
        $it['absent'][] = 1;
        [$it['list'][0], $it['list'][1]] = [$it['list'][1], $it['list'][0]];
        return isset($it['map']['kk']['deep'][0]);
    },
    'destructuring by reference' => function ($it) {
        [$x, &$y] = $it['list'];
        $y = 5;
        ['map' => ['x' => &$z]] = $it;
        $z = 'n';
    },
    'foreach by reference' => function ($it) {
        foreach ($it as &$member) {
            if (is_array($member)) {
                foreach ($member as &$inner) {
                    $inner = 'z';
                }
            } else {
                $member = 1;
            }
        }
    },
    'foreach' => function ($it) {
        foreach ($it as $key => $member) {
            $copy[$key] = $member;
            $$key = $member;
        }
        unset($b, $a);
        return $copy;
    },
    'references' => function ($it) {
        $reference = &$it['map']['x'];
        $reference = 'new';
        $copy = $it;
        $copy['map']['x'] = 'other';
        change_each($it);
    },
    'sorting' => function ($it) {
        sort($it['list']);
        rsort($it['list']);
        ksort($it);
        asort($it['map']);
        usort($it['list'], fn ($a, $b) => $a <=> $b);
        uksort($it['map'], 'strcmp');
        array_multisort($it['list']);
        natsort($it['list']);
        shuffle($it['list']);
    },
    'array functions' => function ($it) {
        array_push($it['list'], 1);
        array_pop($it['list']);
        array_shift($it['list']);
        array_unshift($it['list'], 9);
        array_splice($it['list'], 0, 1, [7]);
        array_walk($it, function (&$x) {
            $x = is_string($x) ? "$x!" : $x;
        });
        array_walk_recursive($it, function (&$x) {
            $x = 1;
        });
        reset($it);
        next($it);
        end($it);
    },
    'functions that may change their argument in place' => function ($it) use ($fetch) {
        foreach ([
            array_merge($it['list'], [1]), array_values($it['list']), array_values($fetch()['list']), array_filter($fetch()['list']),
            array_map(null, $fetch()['list']), $fetch() + [], array_unique($fetch()['list']), array_reverse($it['list']), array_pad($it['list'], 3, 0),
            array_replace($fetch()['map'], []), array_slice($fetch()['list'], 0), array_merge($fetch()), array_diff_key($fetch(), []),
            array_intersect_key($fetch(), $it), array_combine($it['list'], $it['list']), array_fill_keys($it['list'], $it), array_chunk($it['list'], 2),
        ] as $result) {
            $result[] = 1;
            $result['new'] = 1;
        }
    },
    'strings' => function ($it) use ($fetch) {
        $text = $it['text'];
        $text[0] = 'J';
        $text .= 'x';
        $long = $fetch('long');
        $long[5] = 'Q';
        $long .= 'more';
        $joined = $fetch('long') . 'x';
        $next = $it['text'];
        $next++;
        $swapped = strtr($fetch('long'), 'l', 'L');
        return str_replace('long', 'short', $fetch('long')) . $joined . $swapped . substr($fetch('long'), 1);
    },
    'static variables' => function ($it) {
        static $array, $text = 1;
        $array = $it;
        $array['list'][] = 1;
        $text = $it['text'];
        $text .= 'x';
    },
    'properties' => function ($it) {
        $holder = new Holder;
        $holder->any = $it;
        $holder->any['a'] = 5;
        $holder->array = $it['map'];
        $holder->array['x'] .= 'y';
        $holder->string = $it['text'];
        $holder->string .= 'z';
        Holder::$static = $it;
        Holder::$static['list'][0] = 1;
        $holder->{$it['variable']} = 1;
        $object = (object) $it['map'];
        $object->x = 'w';
        $object->new = 1;
        $clone = clone $object;
        $clone->kk['deep'][] = 2;
        return [new $it['name'], $it['class']::seven(), (object) $it, (array) $object];
    },
    'calls' => function ($it) {
        $it['function']('x');
        call_user_func($it['function'], 'x');
        call_user_func_array('max', $it['list']);
        (fn (...$all) => $all)(...$it['list']);
        (fn (...$all) => $all)(...$it['map']);
        compact('it');
        extract($it);
        $b = 8;
    },
    'names' => function ($it) {
        define($it['constant'], $it);
        $copy = constant('FETCHED');
        $copy['a'] = 3;
        define('FETCHED_TEXT', $it['text']);
        class_alias('Named', "Alias{$it['name']}");
        eval('class Evaluated' . mt_rand() . ' { const X = FETCHED; public $y = FETCHED["list"]; }');
        return [function_exists($it['function']), is_callable("{$it['class']}::seven"), class_exists($it['class']), new ReflectionClass($it['class'])];
    },
    'files' => function ($it) {
        $path = include $it['file'];
        include_once $it['file'];
        fopen($it['file'], 'r');
        stat($it['file']);
        set_include_path($it['folder']);
        return $path;
    },
    'settings' => function ($it) {
        ini_set('date.timezone', $it['zone']);
        date_default_timezone_set($it['zone']);
        putenv($it['environment']);
        getenv('KEPT');
        setlocale(LC_ALL, $it['locale']);
        setlocale(LC_CTYPE, $it['locale']);
        ini_set('error_log', "{$it['file']}.log");
        ini_set('user_agent', $it['text']);
        ini_set('arg_separator.output', "{$it['b']}&");
        error_log($it['text']);
    },
    'patterns' => function ($it) use ($fetch) {
        preg_match($it['pattern'], $it['text'], $found);
        $found[] = 1;
        preg_replace($it['pattern'], 'x', $it['text']);
        preg_match_all($it['pattern'], $fetch('long'), $found);
        preg_replace_callback($it['pattern'], fn ($found) => $found[0], $it['text']);
        preg_split('/l/u', $it['text']);
        preg_quote($it['text']);
        return function_exists('mb_strlen') ? mb_strlen($it['text']) : 0;
    },
    'texts of values' => function ($it) {
        unserialize(serialize($it));
        json_encode($it);
        var_export($it, true);
        print_r($it, true);
        ob_start();
        var_dump($it);
        debug_zval_dump($it);
        ob_end_clean();
        http_build_query($it);
        if (function_exists('igbinary_serialize')) {
            igbinary_unserialize(igbinary_serialize($it));
        }
        return md5(serialize([$it, $it]));
    },
    'stores' => function ($it) use ($fetch) {
        apcu_store('second', $it);
        apcu_store('second', $fetch('second'));
        apcu_store($fetch()['map']);
        apcu_store('third', [$it, $it, 'x' => $it['map']]);
        if ($fetch('third')[1] !== $it) {
            fwrite(STDERR, "a stored value differs\n");
        }
    },
    'iterators' => function ($it) {
        $object = new ArrayObject($it);
        $object['n'] = 1;
        unset($object['a']);
        foreach ($object as $key => $member) {
            $object[$key] = 1;
        }
        $object->ksort();
        $iterator = new ArrayIterator($it['list']);
        $iterator[0] = 4;
        foreach ($iterator as $member) {
        }
        $fixed = SplFixedArray::fromArray($it['list']);
        $fixed[0] = 1;
        foreach (new RecursiveIteratorIterator(new RecursiveArrayIterator($it)) as $member) {
        }
        $all = new RecursiveIteratorIterator(new RecursiveArrayIterator($it, RecursiveArrayIterator::CHILD_ARRAYS_ONLY));
        foreach ($all as $key => $member) {
            $all->getInnerIterator()->offsetSet($key, 'w');
        }
        $list = new SplDoublyLinkedList;
        $list->push($it);
        foreach (new CachingIterator(new ArrayIterator($it), CachingIterator::FULL_CACHE) as $member) {
        }
    },
    'generators' => function ($it) use ($fetch) {
        $by_reference = (function () use (&$it, $fetch) {
            foreach ($it as $key => &$member) {
                $member = 1;
                yield $key => $member;
            }
            yield from $fetch()['list'];
        })();
        foreach ($by_reference as $member) {
        }
        $references = (function &() use ($fetch) {
            $all = $fetch();
            foreach ($all as &$member) {
                yield $member;
            }
        })();
        foreach ($references as &$member) {
            $member = 2;
        }
    },
    'closures' => function ($it) {
        $change = function () use ($it) {
            $it['list'][] = 1;
            return $it;
        };
        $change();
        (fn () => $it['list'][0])();
        Closure::fromCallable($it['function'])('x');
    },
    'comparisons' => function ($it) {
        switch ($it['text']) {
            case "h\u{e9}llo":
                break;
        }
        return match ($it['name']) {
            'SplStack' => 1,
            default => 2,
        };
    },
    'recursion' => function ($it) {
        $it['self'] = &$it;
        $it['list'][] = &$it['map'];
        print_r($it, true);
        count($it, COUNT_RECURSIVE);
        unset($it);
        gc_collect_cycles();
    },
    'the end of a request' => function ($it) use ($value) {
        $GLOBALS['late'] = new Late($it, $value);
        ob_start(fn ($bytes) => "{$it['text']}$bytes");
        echo ' ';
        register_shutdown_function(function ($it) use ($value) {
            if ($it !== $value) {
                fwrite(STDERR, "a value differs in a shutdown function\n");
            }
            $it['list'][] = 1;
        }, $it);
        set_error_handler(fn () => (bool) $it);
        header_register_callback(fn () => $it['text']);
    },
    'sessions' => function ($it) {
        session_save_path($it['folder']);
        session_start(['use_cookies' => 0, 'cache_limiter' => '']);
        $_SESSION = $it;
        $_SESSION['list'][] = 1;
        $_SESSION['again'] = $it;
        session_write_close();
    },
];

$faults = 0;
foreach ($ways as $name => $way) {
    $id = pcntl_fork();
    if ($id === 0) {
        // What is printed is of no interest; faults are.
        ob_start(fn () => '');
        set_error_handler(fn () => true);
        $it = $fetch();
        try {
            $way($it);
            $way($fetch());
        } catch (Throwable $thrown) {
            fwrite(STDERR, "$name: {$thrown->getMessage()}\n");
        }
        exit($it === $value && $fetch() === $value && $fetch('long') === $long ? 0 : 1);
    }
    pcntl_waitpid($id, $status);
    if ($status !== 0) {
        $faults++;
        echo "$name: ", pcntl_wifsignaled($status) ? 'signal ' . pcntl_wtermsig($status) : 'a value has changed', "\n";
    }
}
if ($fetch() !== $value || $fetch('long') !== $long) {
    $faults++;
    echo "a value has changed at the end\n";
}
printf("%d ways to write: %d faults\n", count($ways), $faults);
exit($faults === 0 ? 0 : 1);
