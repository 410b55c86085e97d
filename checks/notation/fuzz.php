<?php // SPDX-License-Identifier: MIT
// Random values as PHP's serialize writes them: php fuzz.php SEED COUNT script|printed
// prints a script that stores and fetches each, or what apcu_run has to print for it.

class Session
{
    public $open;
    protected $guarded;
    private $hidden;

    public function __construct($open, $guarded, $hidden)
    {
        $this->open = $open;
        $this->guarded = $guarded;
        $this->hidden = $hidden;
    }
}

function bytes(): string
{
    $length = [0, 1, 2, 7, 8, 9, 40][mt_rand(0, 6)];
    $text = '';
    for ($i = 0; $i < $length; $i++) {
        $text .= chr(mt_rand(0, 255));
    }
    return $text;
}

function integer(): int
{
    return [0, -1, 5, PHP_INT_MAX, PHP_INT_MIN, mt_rand(-1000, 1000)][mt_rand(0, 5)];
}

function key_of_array()
{
    return [mt_rand(-3, 9), (string) mt_rand(-3, 9), '05', '-0', '', bytes()][mt_rand(0, 5)];
}

// A value of at most this many levels. Values that were made before may be shared, by reference or as objects.
function value(int $levels, array &$made)
{
    switch (mt_rand(0, $levels > 0 ? 9 : 4)) {
        case 0:
            return null;
        case 1:
            return mt_rand(0, 1) === 1;
        case 2:
            return integer();
        case 3:
        case 4:
            return bytes();
        case 5:
            $object = new stdClass();
            $made[] = $object;
            for ($i = mt_rand(0, 3); $i > 0; $i--) {
                $object->{'p' . $i} = value($levels - 1, $made);
            }
            return $object;
        case 6:
            $object = new Session(null, null, null);
            $made[] = $object;
            $object->__construct(value($levels - 1, $made), value($levels - 1, $made), $object);
            return $object;
        case 7:
            if ($made !== []) {
                return $made[array_rand($made)];
            }
            return null;
        default:
            $array = [];
            for ($i = mt_rand(0, 4); $i > 0; $i--) {
                $array[key_of_array()] = value($levels - 1, $made);
            }
            foreach (array_keys($array) as $key) {
                if (mt_rand(0, 4) === 0) {
                    $array['same' . bin2hex((string) $key)] = &$array[$key];
                }
                if (mt_rand(0, 14) === 0) {
                    $array['self'] = &$array;
                }
            }
            return $array;
    }
}

[, $seed, $count, $what] = $argv;
mt_srand((int) $seed);
echo $what === 'script' ? "worker\n" : "worker 0\n";
for ($i = 0; $i < (int) $count; $i++) {
    $made = [];
    $text = serialize(value(5, $made));
    if ($what === 'script') {
        echo "apcu_store s:1:\"a\"; $text\napcu_fetch s:1:\"a\";\n";
    } else {
        echo "b:1;\n{$text}b:1;\n";
    }
}
if ($what === 'printed') {
    echo "journal\n", str_repeat("0\n", 2 * (int) $count + 1);
}
