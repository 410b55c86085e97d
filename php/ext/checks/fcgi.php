<?php // SPDX-License-Identifier: MIT

// A small client of FastCGI over a local socket: requests a script COUNT times in each of PROCESSES processes.
// php fcgi.php SOCKET SCRIPT COUNT PROCESSES [QUERY]
// prints how many answers were good (their text begins with ok), lost (the worker was killed), and late (none within
// twenty seconds); other answers are printed. Its status is 1 if there is such one, and 2 if one was late.

declare(strict_types=1);

const PATIENCE = 20;

function record(int $type, string $content): string
{
    return pack('CCnnCC', 1, $type, 1, strlen($content), 0, 0) . $content;
}

function pair(string $name, string $value): string
{
    $length = fn (string $text): string => strlen($text) < 128 ? chr(strlen($text)) : pack('N', strlen($text) | 0x80000000);
    return $length($name) . $length($value) . $name . $value;
}

/** The answer's text without its head; null if the other end was lost; false if nothing came in time. */
function ask(string $socket, string $script, string $query): null|string|false
{
    $to = @stream_socket_client("unix://$socket", $code, $message, PATIENCE);
    if ($to === false) {
        return null;
    }
    $words = ['SCRIPT_FILENAME' => $script, 'SCRIPT_NAME' => '/' . basename($script), 'REQUEST_METHOD' => 'GET',
        'QUERY_STRING' => $query, 'REQUEST_URI' => '/' . basename($script) . "?$query", 'SERVER_PROTOCOL' => 'HTTP/1.1',
        'GATEWAY_INTERFACE' => 'CGI/1.1', 'REMOTE_ADDR' => '127.0.0.1', 'SERVER_NAME' => 'localhost', 'SERVER_PORT' => '80',
        'HTTP_HOST' => 'localhost', 'PHP_SELF' => '/' . basename($script)];
    $pairs = '';
    foreach ($words as $name => $value) {
        $pairs .= pair($name, $value);
    }
    if (@fwrite($to, record(1, pack('nCxxxxx', 1, 0)) . record(4, $pairs) . record(4, '') . record(5, '')) === false) {
        return null;
    }
    $all = '';
    $end = microtime(true) + PATIENCE;
    stream_set_blocking($to, false);
    while (!feof($to)) {
        [$read, $write, $except] = [[$to], null, null];
        if (stream_select($read, $write, $except, 1) === 0 && microtime(true) > $end) {
            return false;
        }
        $all .= (string) @fread($to, 65536);
    }
    $text = '';
    $ended = false;
    for ($at = 0; $at + 8 <= strlen($all); $at += 8 + $head['length'] + $head['padding']) {
        $head = unpack('Cversion/Ctype/nid/nlength/Cpadding', $all, $at);
        if ($head['type'] === 6 || $head['type'] === 7) {
            $text .= substr($all, $at + 8, $head['length']);
        }
        $ended = $ended || $head['type'] === 3;
    }
    return $ended ? explode("\r\n\r\n", $text, 2)[1] ?? $text : null;
}

/** Asks and counts. */
function ask_many(string $socket, string $script, int $count, string $query): array
{
    $found = ['good' => 0, 'lost' => 0, 'late' => 0, 'other' => 0];
    for ($i = 0; $i < $count && $found['late'] === 0; $i++) {
        $answer = ask($socket, $script, $query);
        if (is_string($answer) && str_starts_with($answer, 'ok')) {
            $found['good']++;
        } elseif (is_string($answer)) {
            $found['other']++;
            echo substr($answer, 0, 300), "\n";
        } else {
            $found[$answer === null ? 'lost' : 'late']++;
        }
    }
    return $found;
}

if (realpath($_SERVER['SCRIPT_FILENAME']) !== __FILE__) {
    return;
}
[, $socket, $script, $count, $processes] = $argv;
$children = [];
for ($i = 0; $i < (int) $processes; $i++) {
    [$own, $its] = stream_socket_pair(STREAM_PF_UNIX, STREAM_SOCK_STREAM, STREAM_IPPROTO_IP);
    $id = pcntl_fork();
    if ($id === 0) {
        fwrite($its, serialize(ask_many($socket, $script, intdiv((int) $count, (int) $processes), $argv[5] ?? '')));
        exit(0);
    }
    fclose($its);
    stream_set_timeout($own, 3600);
    $children[$id] = $own;
}
$sum = [];
foreach ($children as $id => $stream) {
    foreach (unserialize(stream_get_contents($stream)) as $what => $number) {
        $sum[$what] = ($sum[$what] ?? 0) + $number;
    }
    pcntl_waitpid($id, $status);
}
foreach ($sum as $what => $number) {
    echo "$number $what ";
}
echo "\n";
exit($sum['late'] > 0 ? 2 : min($sum['other'], 1));
