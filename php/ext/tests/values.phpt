--TEST--
Values of every kind come back as they were stored
--INI--
apc.enabled=1
apc.enable_cli=1
serialize_precision=17
--FILE--
<?php
enum Suit: string
{
    case Hearts = 'h';
}
enum Pure
{
    case One;
}
class Hooked
{
    public $value;
    public function __serialize(): array
    {
        return ['v' => $this->value];
    }
    public function __unserialize(array $data): void
    {
        $this->value = "read {$data['v']}";
    }
}
class Slept
{
    public $kept = 1;
    public $left = 2;
    public function __sleep()
    {
        return ['kept'];
    }
    public function __wakeup()
    {
        $this->left = 'woken';
    }
}
final class Fixed
{
    public function __construct(public readonly int $number)
    {
    }
}

function check(string $name, mixed $value): void
{
    $stored = apcu_store($name, $value);
    $found = apcu_fetch($name, $is_there);
    echo $name, ': ', $stored && $is_there && serialize($found) === serialize($value) && gettype($found) === gettype($value) ? 'same' : 'other', "\n";
}

foreach ([null, true, false, 0, -1, PHP_INT_MAX, PHP_INT_MIN] as $i => $value) {
    check("plain $i", $value);
}
// A double is its bits.
foreach ([0.0, -0.0, 0.1, 1e308, 5e-324, INF, -INF, NAN, 9007199254740993.0] as $i => $value) {
    apcu_store('double', $value);
    echo "double $i: ", bin2hex(pack('E', apcu_fetch('double'))) === bin2hex(pack('E', $value)) ? 'same' : 'other', "\n";
}
// Texts that end in bytes which may mean something, or look like other values.
foreach (['', '0', "\0", "\1", "\2", "\3", "\4", "x\0", "12345678\2", 'i:5;', 'a:0:{}', "\1a:0:{}", str_repeat('y', 100000)] as $i => $value) {
    check("text $i", $value);
}
check('list', [1, 2.5, 'x', null, [true, []]]);
check('keys', [5 => 'a', '05' => 'b', '' => 'c', -7 => 'd', PHP_INT_MAX => 'e', "\0" => 'f']);
$one = 1;
check('references', [&$one, &$one, 'two' => [&$one]]);
$found = apcu_fetch('references');
$found[0] = 9;
echo $found[1], $found['two'][0], "\n";
$self = ['x' => 1];
$self['self'] = &$self;
apcu_store('self', $self);
$found = apcu_fetch('self');
$found['self']['x'] = 5;
echo $found['self']['self']['x'], "\n";
$object = new stdClass();
$object->{'5'} = 'five';
$object->self = $object;
check('object', $object);
$found = apcu_fetch('object');
var_dump($found->self === $found, $found !== $object);
check('two of one', [$object, $object]);
check('enum', [Suit::Hearts, Pure::One]);
var_dump(apcu_fetch('enum')[0] === Suit::Hearts);
check('fixed', new Fixed(5));
check('array object', new ArrayObject([1, 'k' => new ArrayObject()]));
$storage = new SplObjectStorage();
$storage[$object] = 'data';
check('storage', $storage);
check('date', new DateTimeImmutable('2026-01-01 UTC'));
$hooked = new Hooked();
$hooked->value = 'x';
apcu_store('hooked', [$hooked, new Slept()]);
[$hooked, $slept] = apcu_fetch('hooked');
var_dump($hooked->value, $slept->kept, $slept->left);
?>
--EXPECT--
plain 0: same
plain 1: same
plain 2: same
plain 3: same
plain 4: same
plain 5: same
plain 6: same
double 0: same
double 1: same
double 2: same
double 3: same
double 4: same
double 5: same
double 6: same
double 7: same
double 8: same
text 0: same
text 1: same
text 2: same
text 3: same
text 4: same
text 5: same
text 6: same
text 7: same
text 8: same
text 9: same
text 10: same
text 11: same
text 12: same
list: same
keys: same
references: same
99
5
object: same
bool(true)
bool(true)
two of one: same
enum: same
bool(true)
fixed: same
array object: same
storage: same
date: same
string(6) "read x"
int(1)
string(5) "woken"
