<?php // SPDX-License-Identifier: MIT

// Random calls of PHP: php fuzz.php moment|times|four SEED COUNT
// prints a digest of each thousand answers, so that two extensions can be compared; with TRACE=1 in the environment
// each answer is a line. An answer is what the call gave or threw, its warnings, and which hooks of objects it ran.
// `moment`: time does not advance. `times`: it moves between calls. `four`: four processes take turns, one at a time, and
// one in a hundred turns ends a process, which a new one replaces; over odd seeds time moves. Time is the file CLOCK_FILE.
//
// Left out is what docs/DIFFERENCES.md lets differ (its numbers):
//  6       a ttl is from 0 to 2,147,483,647;
//  11, 12  if time moves, no two keys share a slot;
//  13 - 18 the cache is never full, and no size of a row or of memory is printed;
//  25, 45  rows are printed by rising key, and none is changed during a walk that can still reach it;
//  30      no list names a key twice;
//  35      if time moves, a row that a call ever tried to swap has no moment of its last change;
//  46, 49  of the segments only their number and the names and types of fields are printed;
//  and the number of slots, when the server was started and how many copy from a row. So is what docs/EXTENSION.md
//  lets differ of a value that can't be read: none has an object with a destructor next to it.

declare(strict_types=1);

error_reporting(E_ALL & ~E_DEPRECATED);

/** The members of apcu_cache_info that APCu has. */
function without_ours(array $info): array
{
    return array_diff_key($info, array_flip(['remakes', 'seats_taken', 'longest_wait', 'longest_entry_wait',
        'kept_entries', 'kept_size', 'kept_hits']));
}

/** What hooks and warnings did during a call. */
final class Notes
{
    public static array $all = [];
    /** Whether a walk was broken off, so that not all of them can be compared. */
    public static bool $is_partial = false;

    public static function add(string $note): void
    {
        self::$all[] = $note;
    }
}

set_error_handler(function (int $level, string $message): bool {
    Notes::add("$level $message");
    return true;
});

class Plain
{
    public $a = 1;
    private $b = [1.5];
    protected $c;
    public ?int $typed = 3;
}
class Slept
{
    public $a;
    public $left = 1;
    public function __sleep(): array
    {
        Notes::add('sleep');
        return ['a'];
    }
    public function __wakeup(): void
    {
        Notes::add('wakeup');
    }
}
class Hooked
{
    public function __construct(public $value)
    {
    }
    public function __serialize(): array
    {
        Notes::add('serialize');
        return ['v' => $this->value];
    }
    public function __unserialize(array $data): void
    {
        Notes::add('unserialize');
        $this->value = $data['v'];
    }
}
class Old implements Serializable
{
    public $value;
    public function serialize()
    {
        Notes::add('old serialize');
        return serialize($this->value);
    }
    public function unserialize($text)
    {
        Notes::add('old unserialize');
        $this->value = unserialize($text);
    }
}
class Unwilling
{
    public function __serialize(): array
    {
        throw new RuntimeException('not to be stored');
    }
}
class Unreadable
{
    public $value = 2;
    public function __unserialize(array $data): void
    {
        throw new RuntimeException('not to be read');
    }
}
/** Calls the cache inside its own hooks, for a key that no other call names; but not during a walk: APCu would wait for its own lock. */
class Caller
{
    public static bool $is_still = false;
    public function __construct(public string $key)
    {
    }
    public function __serialize(): array
    {
        Notes::add('caller ' . tell(apcu_inc('inner')));
        return [$this->key];
    }
    public function __unserialize(array $data): void
    {
        [$this->key] = $data;
        if (self::$is_still) {
            return;
        }
        Notes::add('caller ' . tell([apcu_fetch('inner'), apcu_exists($this->key), apcu_inc('inner', 2)]));
    }
}
class Ended
{
    public $value;
    public function __destruct()
    {
        Notes::add('end');
    }
}
final class Fixed
{
    public function __construct(public readonly array $value, public readonly int $number = 5)
    {
    }
}
enum Pure
{
    case One;
    case Two;
}
enum Suit: string
{
    case Hearts = 'h';
    case Spades = 's';
}

/** A value in words: its types, its members in order, and which of them are one place or one object. */
function tell(mixed $value, array &$places = [], array &$objects = []): string
{
    if ($value instanceof UnitEnum) {
        return $value::class . '::' . $value->name;
    }
    if (is_object($value)) {
        $id = spl_object_id($value);
        if (isset($objects[$id])) {
            return "object {$objects[$id][0]}";
        }
        // The object is kept, so that its number is not given to another one.
        $objects[$id] = [count($objects), $value];
        if ($value instanceof Closure || $value instanceof APCUIterator) {
            return $value::class;
        }
        if ($value instanceof DateTimeInterface) {
            return $value::class . $value->format(' c u e');
        }
        return $value::class . tell($value instanceof ArrayObject ? $value->getArrayCopy() : (array) $value, $places, $objects);
    }
    if (!is_array($value)) {
        return is_string($value) ? '"' . (strlen($value) > 60 ? strlen($value) . sha1($value) : $value) . '"' : var_export($value, true);
    }
    $members = [];
    foreach ($value as $key => $member) {
        $place = ReflectionReference::fromArrayElement($value, $key)?->getId();
        $name = is_int($key) ? $key : "'$key'";
        if ($place !== null && isset($places[$place])) {
            $members[] = "$name => place {$places[$place]}";
            continue;
        }
        if ($place !== null) {
            $places[$place] = count($places);
            $name .= " & {$places[$place]}";
        }
        $members[] = "$name => " . tell($member, $places, $objects);
    }
    return '[' . implode(', ', $members) . ']';
}

/** One of several. */
function pick(array $all): mixed
{
    return $all[mt_rand(0, count($all) - 1)];
}

/** The calls of one process. */
final class Calls
{
    private const KEYS = ['a', 'b', 'c', 'd', 'A', '7', '-3', '00', '-0', '', 'a b', "x\xff\0y", "\xc3\xa9", '9223372036854775807',
        '9223372036854775808', 'long-key-of-some-length-1', 'long-key-of-some-length-2'];
    /** Keys that are swapped if time moves, and no others then. */
    private const SWAPPED = ['s1', 's2', '42'];
    private bool $is_moving;
    private int $now;
    /** Classes of which the value that is made has objects. */
    private array $classes = [];

    public function __construct(string $how, int $seed)
    {
        $this->is_moving = $how === 'times' || $how === 'four' && $seed % 2 === 1;
    }

    private function key(): string
    {
        $kind = mt_rand(0, 9);
        return match (true) {
            $kind === 0 => pick(self::SWAPPED),
            // Many keys, some with one slot.
            $kind === 1 && !$this->is_moving => 'many' . mt_rand(0, 3000),
            $kind === 2 && !$this->is_moving => str_repeat(pick(['Ez', 'FY']), mt_rand(1, 3)),
            $kind === 3 && !$this->is_moving => str_repeat('k', mt_rand(0, 300)),
            default => pick(self::KEYS),
        };
    }

    private function keys(): array
    {
        $keys = [];
        for ($i = mt_rand(0, 5); $i > 0; $i--) {
            $keys[] = $this->key();
        }
        return array_values(array_unique($keys));
    }

    private function ttl(): int
    {
        return pick([0, 0, 0, 1, 2, 3, 10, 1000, 2147483647]);
    }

    private function scalar(): mixed
    {
        return match (mt_rand(0, 7)) {
            0 => pick([null, true, false]),
            1, 2 => pick([0, 1, -1, 5, 7, PHP_INT_MAX, PHP_INT_MIN, mt_rand()]),
            3 => pick([0.0, -0.0, 1.5, 0.1, 1e300, -1e-300, INF, -INF, NAN, 9007199254740993.0, mt_rand() / 7]),
            4, 5 => pick(['', '0', 'abc', 'i:5;', 'x"y', "\0", "\x01", "\x02", "\xff\0", 'a:0:{}']),
            6 => str_repeat(chr(mt_rand(0, 255)), mt_rand(0, 64)),
            7 => str_repeat(pick(['x', 'yz', "\0"]), pick([100, 1000, 5000])),
        };
    }

    private function value(): mixed
    {
        $this->classes = [];
        $value = $this->part();
        // What was read before the part that can't be is freed at once here, and by APCu when the request ends. Old can't
        // be read while an exception is pending, as that of another key of the same list.
        $is_unreadable = isset($this->classes[Unreadable::class]) || isset($this->classes[Old::class]);
        return $is_unreadable && isset($this->classes[Ended::class]) ? $this->scalar() : $value;
    }

    private function part(int $depth = 0): mixed
    {
        $kind = $depth > 3 ? 0 : mt_rand(0, 29);
        $is_default = ini_get('apc.serializer') === 'default';
        // igbinary does not come back from an array that holds itself, and throws twice what can't be stored.
        if (($kind === 18 || $kind > 27) && ini_get('apc.serializer') === 'igbinary') {
            $kind = 0;
        }
        // PHP's serializer writes null in an array that holds itself, and APCu's default one copies it.
        if ($kind === 18 && $is_default) {
            $kind = 0;
        }
        if ($kind < 12) {
            return $this->scalar();
        }
        if ($kind < 17) {
            $array = [];
            for ($i = mt_rand(0, 5); $i > 0; $i--) {
                $array[pick([0, 1, 2, -5, 'x', '', '01', PHP_INT_MAX - 1, "\0"])] = $this->part($depth + 1);
            }
            return $array;
        }
        if ($kind === 17) {
            // A list, some members of which are one place.
            $list = [];
            for ($i = mt_rand(1, 6); $i > 0; $i--) {
                $list[] = $this->part($depth + 1);
            }
            $list[] = &$list[0];
            $list[] = $list[mt_rand(0, count($list) - 1)];
            return $list;
        }
        if ($kind === 18) {
            $array = ['own' => $this->scalar()];
            $array['self'] = &$array;
            return $array;
        }
        if ($kind < 22) {
            $object = pick([new stdClass(), new Plain(), new Slept(), new Old(), new Ended()]);
            $this->classes[$object::class] = true;
            $object->{$object instanceof Old || $object instanceof Ended ? 'value' : 'a'} = $this->part($depth + 1);
            if ($object instanceof stdClass) {
                $object->{'5'} = 1;
                $object->{pick(['', "p\0", 'self'])} = $object;
            }
            return $object;
        }
        // APCu's default serializer refuses an array with a resource; PHP's writes 0 instead.
        $resource = $is_default ? null : STDIN;
        $value = match ($kind) {
            22 => new Hooked($this->part($depth + 1)),
            23 => pick([Pure::One, Pure::Two, Suit::Hearts, Suit::Spades]),
            24 => new ArrayObject([$this->part($depth + 1), 'k' => 1]),
            25 => new Fixed([$this->part($depth + 1)]),
            26 => new DateTimeImmutable('@' . mt_rand()),
            27 => new Caller($this->key()),
            28 => pick([new Unwilling(), new Unreadable(), new SplObjectStorage(), new SplFixedArray(2)]),
            29 => pick([fn () => 1, new Exception('stored'), new class () {}, $resource, new APCUIterator('/^none$/')]),
        };
        $this->classes[get_debug_type($value)] = true;
        return $value;
    }

    /** By rising key. */
    private function by_key(array $rows): array
    {
        usort($rows, fn (array $a, array $b): int => strcmp($a[0], $b[0]));
        return $rows;
    }

    /** Rows as they are printed, without what may differ. */
    private function row(array $row): array
    {
        foreach (['mem_size', 'ref_count', 'refs'] as $name) {
            if (isset($row[$name])) {
                $row[$name] = get_debug_type($row[$name]);
            }
        }
        return $row;
    }

    private function without_change(string $key, array $row): array
    {
        if ($this->is_moving && in_array($key, self::SWAPPED, true)) {
            unset($row['mtime']);
        }
        return $row;
    }

    private function store(): mixed
    {
        $word = pick(['apcu_store', 'apcu_store', 'apcu_add']);
        Notes::add($word);
        // While an exception is on its way, APCu's default serializer still copies the arrays of a list, and PHP's does not.
        if (mt_rand(0, 3) > 0 || ini_get('apc.serializer') === 'default') {
            return $word($this->key(), $this->value(), $this->ttl());
        }
        $values = [];
        for ($i = mt_rand(0, 5); $i > 0; $i--) {
            $values[$this->key()] = $this->value();
        }
        if (count($values) > 1 && mt_rand(0, 3) === 0) {
            $values[array_key_first($values)] = &$values[array_key_last($values)];
        }
        return $word($values, null, $this->ttl());
    }

    private function fetch(): mixed
    {
        Notes::add('fetch');
        if (mt_rand(0, 3) > 0) {
            $found = apcu_fetch($this->key(), $success);
            return [$found, $success];
        }
        $keys = $this->keys();
        if (mt_rand(0, 9) === 0) {
            $keys[] = pick([5, null, 1.5, [], true]);
        }
        $found = apcu_fetch($keys, $success);
        return [$found, $success];
    }

    private function delete(): mixed
    {
        Notes::add('delete');
        $keys = mt_rand(0, 2) > 0 ? $this->key() : $this->keys();
        return apcu_delete($keys);
    }

    private function count(): mixed
    {
        $word = pick(['apcu_inc', 'apcu_dec']);
        Notes::add($word);
        $step = pick([0, 1, 1, 2, -1, 10, PHP_INT_MAX, PHP_INT_MIN]);
        $found = $word($this->key(), $step, $success, $this->ttl());
        return [$found, $success];
    }

    private function swap(): mixed
    {
        Notes::add('cas');
        return apcu_cas($this->is_moving ? pick(self::SWAPPED) : $this->key(), mt_rand(-1, 7), mt_rand(0, 7));
    }

    private function entry(int $depth = 0): mixed
    {
        $key = $this->key();
        Notes::add("entry $key");
        return apcu_entry($key, function (string $asked) use ($depth): mixed {
            Notes::add("asked $asked");
            return match ($depth > 2 ? 0 : mt_rand(0, 7)) {
                0, 1 => $this->value(),
                2 => $this->entry($depth + 1),
                3 => [apcu_store($asked, 'inside'), apcu_fetch($asked)],
                4 => [apcu_inc('inner'), $this->scalar()],
                5 => throw new RuntimeException('thrown'),
                6 => $this->walk(),
                7 => tell([apcu_exists($asked), apcu_add($this->key(), 1), apcu_cache_info(true)['num_entries']]),
            };
        }, $this->ttl());
    }

    private function told(): mixed
    {
        switch (mt_rand(0, 4)) {
            case 0:
                Notes::add('cache_info');
                $told = without_ours(apcu_cache_info(mt_rand(0, 9) > 0));
                $told['num_slots'] = get_debug_type($told['num_slots']);
                $told['start_time'] = get_debug_type($told['start_time']);
                $told['mem_size'] = get_debug_type($told['mem_size']);
                if (isset($told['cache_list'])) {
                    $rows = [];
                    foreach ($told['cache_list'] as $row) {
                        $rows[] = [$row['info'], $this->without_change($row['info'], $this->row($row))];
                    }
                    $told['cache_list'] = $this->by_key($rows);
                    $told['slot_distribution'] = array_sum($told['slot_distribution']);
                }
                return $told;
            case 1:
                Notes::add('sma_info');
                $told = apcu_sma_info(mt_rand(0, 1) === 1);
                $lists = $told['block_lists'] ?? [[]];
                return [$told['num_seg'], array_map('get_debug_type', $told), array_map('get_debug_type', $lists[0][0] ?? [])];
            default:
                Notes::add('key_info');
                $key = $this->key();
                $row = apcu_key_info($key);
                return is_array($row) ? $this->without_change($key, $this->row($row)) : $row;
        }
    }

    private function search(): mixed
    {
        return match (mt_rand(0, 7)) {
            0, 1 => null,
            2 => '/^[a-d]/',
            3 => '/^many.*7$/',
            4 => '/[0-9]/u',
            5 => '',
            6 => $this->keys(),
            7 => [...$this->keys(), pick([7, null, [], 1.5])],
        };
    }

    private function walk(): mixed
    {
        $format = mt_rand(0, 3) > 0 ? pick([APC_ITER_ALL, APC_ITER_NONE, APC_ITER_KEY, APC_ITER_VALUE | APC_ITER_KEY]) : mt_rand(0, 2047);
        $rows = new APCUIterator($this->search(), $format, pick([0, 1, 2, 7, 100, 5000]));
        Notes::add('walk');
        $found = [];
        if (mt_rand(0, 5) === 0) {
            $found[] = ['', ['count' => $rows->getTotalCount(), 'hits' => $rows->getTotalHits(), 'size' => get_debug_type($rows->getTotalSize())]];
        }
        $hooks = Notes::$all;
        Caller::$is_still = true;
        try {
            foreach ($rows as $key => $row) {
                $found[] = [$key, is_array($row) ? $this->without_change($key, $this->row($row)) : $row];
            }
        } catch (Throwable $thrown) {
            // Which rows were read before is a matter of the order.
            Notes::$is_partial = true;
            throw $thrown;
        } finally {
            Caller::$is_still = false;
        }
        // Hooks run in the order of slots.
        $ran = array_slice(Notes::$all, count($hooks));
        sort($ran);
        Notes::$all = [...$hooks, ...$ran];
        return $this->by_key($found);
    }

    private function delete_found(): mixed
    {
        Notes::add('delete found');
        $rows = new APCUIterator(pick(['/^[a-c]/', '/[0-9]/', $this->keys(), '/^many/', null]), APC_ITER_KEY, pick([0, 1, 3]));
        return apcu_delete($rows);
    }

    /** Calls that are refused, or taken otherwise than they are written. */
    private function odd(): mixed
    {
        $odd = pick([5, 1.5, null, true, [], new stdClass(), 'a', '5', [5], [null], [1.5], [[]]]);
        $which = mt_rand(0, 18);
        Notes::add("odd $which");
        return match ($which) {
            0 => apcu_store($odd, 1),
            1 => apcu_add($odd),
            2 => apcu_fetch($odd),
            3 => is_object($odd) ? null : apcu_delete($odd),
            4 => apcu_exists($odd),
            5 => apcu_inc('a', $odd),
            6 => apcu_inc($odd),
            7 => apcu_cas('s1', $odd, 1),
            8 => apcu_entry('a', $odd),
            9 => apcu_key_info($odd === 5 ? null : 'none'),
            10 => array_keys(without_ours(apcu_cache_info($odd))),
            11 => (function () {
                $rows = new APCUIterator('/^none$/');
                return [$rows->valid(), $rows->getTotalCount(), $rows->next(), $rows->valid(), $rows->current()];
            })(),
            12 => (new APCUIterator('/^none$/'))->key(),
            13 => clone new APCUIterator(),
            14 => (new ReflectionClass('APCUIterator'))->newInstanceWithoutConstructor()->valid(),
            15 => apcu_store(),
            16 => apcu_store('a', 1, 2, 3),
            17 => apcu_store(['x' => 1, 5 => 2, '' => STDIN], 9, 1),
            18 => apcu_enabled(),
        };
    }

    /** One call, as a line. */
    public function line(): string
    {
        Notes::$all = [];
        if ($this->is_moving && mt_rand(0, 9) === 0) {
            self::move(mt_rand(1, 3));
        }
        $kind = mt_rand(0, 99);
        try {
            $answer = match (true) {
                $kind < 28 => $this->store(),
                $kind < 48 => $this->fetch(),
                $kind < 54 => apcu_exists(mt_rand(0, 2) > 0 ? $this->key() : $this->keys()),
                $kind < 61 => $this->delete(),
                $kind < 70 => $this->count(),
                $kind < 75 => $this->swap(),
                $kind < 81 => $this->entry(),
                $kind < 88 => $this->told(),
                $kind < 93 => $this->walk(),
                $kind < 95 => $this->delete_found(),
                $kind < 99 => $this->odd(),
                default => mt_rand(0, 3) === 0 ? apcu_clear_cache() : null,
            };
            $answer = tell($answer);
        } catch (Throwable $thrown) {
            $answer = $thrown::class . ': ' . $thrown->getMessage() . ($thrown->getPrevious() ? ' after ' . $thrown->getPrevious()->getMessage() : '');
            unset($thrown);
        }
        if (Notes::$is_partial) {
            [Notes::$all, Notes::$is_partial] = [[], false];
        }
        return str_replace(["\0", "\n"], ['\0', '\n'], $answer . ' | ' . implode(' | ', Notes::$all));
    }

    private static function move(int $seconds): void
    {
        static $clock = null;
        $clock ??= fopen(getenv('CLOCK_FILE'), 'r+');
        $now = time() + $seconds;
        fseek($clock, 0);
        fwrite($clock, pack('P', $now));
        fflush($clock);
        if (time() !== $now) {
            throw new Error('the clock is not read');
        }
    }

    /** No two of these keys may have a slot in common. */
    public function check_slots(): void
    {
        if (!$this->is_moving) {
            return;
        }
        $keys = [...self::KEYS, ...self::SWAPPED];
        apcu_store(array_fill_keys($keys, 1));
        $slots = apcu_cache_info()['slot_distribution'];
        if (count($slots) !== count($keys)) {
            fwrite(STDERR, "two keys share a slot\n");
            exit(1);
        }
        apcu_clear_cache();
    }
}

/** Digests of lines. */
final class Digest
{
    private int $lines = 0;
    private string $sum = '';

    public function add(string $line): void
    {
        if (getenv('TRACE')) {
            echo $line, "\n";
            return;
        }
        $this->sum = sha1($this->sum . $line, true);
        if (++$this->lines % 1000 === 0) {
            echo bin2hex($this->sum), "\n";
        }
    }

    public function __destruct()
    {
        echo bin2hex($this->sum), "\n";
    }
}

/** A process of its own: the other end of its pipe, and its number. */
function start_one(string $how, int $seed, array $others): array
{
    [$own, $its] = stream_socket_pair(STREAM_PF_UNIX, STREAM_SOCK_STREAM, STREAM_IPPROTO_IP);
    stream_set_timeout($own, 3600);
    stream_set_timeout($its, 3600);
    $id = pcntl_fork();
    if ($id !== 0) {
        fclose($its);
        return [$own, $id];
    }
    fclose($own);
    foreach ($others as [$other]) {
        fclose($other);
    }
    mt_srand($seed);
    $calls = new Calls($how, $seed);
    while (($turn = fgets($its)) !== false && $turn !== "end\n") {
        $lines = [];
        for ($i = (int) $turn; $i > 0; $i--) {
            $lines[] = $calls->line();
        }
        $lines = implode("\n", $lines);
        fwrite($its, pack('V', strlen($lines)) . $lines);
    }
    exit(0);
}

function read_bytes($from, int $count): string
{
    $bytes = '';
    while (strlen($bytes) < $count) {
        $more = fread($from, $count - strlen($bytes));
        if ($more === false || $more === '' && feof($from)) {
            fwrite(STDERR, "a process ended\n");
            exit(1);
        }
        $bytes .= $more;
    }
    return $bytes;
}

[, $how, $seed, $count] = $argv;
[$seed, $count] = [(int) $seed, (int) $count];
mt_srand($seed);
$calls = new Calls($how, $seed);
$calls->check_slots();
$digest = new Digest();
if ($how !== 'four') {
    for ($i = 0; $i < $count; $i++) {
        $digest->add($calls->line());
    }
    exit(0);
}
$all = [];
// Seeds of processes are of the parity that says whether time moves.
$next = $seed * 2000 + $seed % 2;
for ($i = 0; $i < 4; $i++) {
    $all[$i] = start_one($how, $next += 2, $all);
}
for ($made = 0; $made < $count; $made += $turn) {
    $at = mt_rand(0, 3);
    [$to, $id] = $all[$at];
    if (mt_rand(0, 99) === 0) {
        fwrite($to, "end\n");
        fclose($to);
        unset($all[$at]);
        pcntl_waitpid($id, $status);
        $digest->add("end $at " . pcntl_wexitstatus($status));
        $all[$at] = start_one($how, $next += 2, $all);
        [$to] = $all[$at];
    }
    $turn = mt_rand(1, 6);
    fwrite($to, "$turn\n");
    $length = unpack('V', read_bytes($to, 4))[1];
    foreach (explode("\n", read_bytes($to, $length)) as $line) {
        $digest->add("$at $line");
    }
}
foreach ($all as [$to, $id]) {
    fwrite($to, "end\n");
    fclose($to);
    pcntl_waitpid($id, $status);
}
