<?php // SPDX-License-Identifier: MIT

// Lines of scripts and of the output of apcu_run. A string in them may have line feeds of its own.

declare(strict_types=1);

namespace ApcuRecord;

/** The place after the line that begins at a place, or null if the text ends before. */
function line_end(string $text, int $at): ?int
{
    $size = strlen($text);
    while (($at += strcspn($text, "\"\n", $at)) < $size) {
        if ($text[$at] === "\n") {
            return $at + 1;
        }
        // A string is N bytes between quotes, and its length N is between the last two colons.
        $digits = strrpos($text, ':', $at - 2 - $size) + 1;
        $at += (int) substr($text, $digits, $at - 1 - $digits) + 2;
        if ($at > $size) {
            return null;
        }
    }
    return null;
}

/**
 * The lines of a stream, each with its line feed.
 *
 * @param resource $stream
 * @return \Generator<int, string>
 */
function lines_of($stream): \Generator
{
    $text = '';
    $at = 0;
    while (true) {
        $end = line_end($text, $at);
        if ($end !== null) {
            yield substr($text, $at, $end - $at);
            $at = $end;
            continue;
        }
        $more = (string) fread($stream, 1 << 20);
        if ($more === '') {
            break;
        }
        $text = substr($text, $at) . $more;
        $at = 0;
    }
    if ($at < strlen($text)) {
        yield substr($text, $at);
    }
}

/** The first word of a line. */
function word_of(string $line): string
{
    return substr($line, 0, strcspn($line, " \n"));
}

/** The second of a line `time` or `request`. */
function second_of(string $line): int
{
    return (int) substr($line, (int) strpos($line, ':') + 1);
}

/** The first argument of a line, if it is a string. */
function key_of(string $line): ?string
{
    return preg_match('/^[A-Za-z_]+ s:([0-9]+):"/', $line, $found) === 1
        ? substr($line, strlen($found[0]), (int) $found[1])
        : null;
}

/** How many members the array at a place has, or null if there is none. */
function members_of(string $text, int $at = 0): ?int
{
    return preg_match('/\Ga:([0-9]+):/', $text, $found, 0, $at) === 1 ? (int) $found[1] : null;
}

/** A file that must be there, and may be read or written. */
function opened(string $path, string $mode = 'rb')
{
    if ($path === '' || is_dir($path)) {
        give_up($path === '' ? 'a file without a name cannot be opened' : "$path is a folder");
    }
    $file = @fopen($path, $mode);
    return $file === false ? give_up("$path: " . reason()) : $file;
}

/** Writes all of a text to a stream with this name in messages. */
function put($stream, string $text, string $name = 'the output'): void
{
    if (@fwrite($stream, $text) !== strlen($text)) {
        give_up("$name: " . reason());
    }
}

/** Why PHP could not do what was asked last, in the system's words. */
function reason(): string
{
    $words = explode(': ', error_get_last()['message'] ?? 'it failed');
    return preg_replace('/^.* errno=[0-9]+ /', '', end($words));
}

function tell(string $text): void
{
    fwrite(STDERR, "$text\n");
}

function give_up(string $text): never
{
    tell($text);
    exit(1);
}

/** If the words of a script ask for help, prints the comment at its head, and ends. */
function help(array $words): void
{
    if (array_intersect(array_slice($words, 1), ['-h', '--help']) === []) {
        return;
    }
    preg_match('~^//.*\n(//.*\n|\n)*~m', file_get_contents($words[0]), $head);
    echo preg_replace('~^// ?~m', '', rtrim($head[0])), "\n";
    exit;
}
