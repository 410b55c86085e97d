<?php // SPDX-License-Identifier: MIT

declare(strict_types=1);

namespace ApcuRecord;

/** The script of this process: lines in a buffer, and then a file that no other process writes. */
final class Script
{
    /** A file that has as many is not written on: apcu_run takes 67,108,864 at most. */
    private const MOST = 62_000_000;

    public static bool $tells_replies = false;
    private static bool $is_off = false;
    /** The lines that are not written yet; they are written when they have more than 65,536 bytes. */
    public static string $buffer = '';
    /** APCu reads the clock that begins with the machine, and the time of day with apc.use_request_time. */
    public static bool $is_by_day = false;
    /** What `time` or `request` said last; and as it was where the buffer begins. */
    public static int $second = 0;
    private static int $second_before = 0;
    private static int $request = 0;
    private static string $replies = '';
    /** @var array<string, int> how many calls were left out, and how many values a string replaces, by kind */
    private static array $left = [];
    /** The recorder itself asks APCu. */
    private static bool $is_asking = false;
    private static string $path = '';
    private static int $process = 0;
    /** @var resource|null */
    private static $file = null;
    private static int $size = 0;
    private static string $reason = '';

    public static function begin(): void
    {
        self::$is_by_day = (bool) \ini_get('apc.use_request_time');
        self::$request = self::$is_by_day ? (int) $_SERVER['REQUEST_TIME'] : self::now();
        self::$second = self::$second_before = self::$request;
        self::$tells_replies = \getenv('APCU_RECORD_REPLIES') === '1';
        // From there on uopz shows no calls any more.
        \register_shutdown_function(self::flush(...));
        if (\function_exists('pcntl_fork')) {
            // What the parent has not written is not for the child to write. A hook has no `self`.
            \uopz_set_hook('pcntl_fork', static function (): void {
                Script::flush();
            });
        }
    }

    /** Appends the lines of a call, which end with line feeds; none if it was left out. */
    public static function call(string $lines, ?int $now = null): void
    {
        if ($lines === '' || self::$is_asking) {
            return;
        }
        $now ??= self::now();
        if ($now !== self::$second) {
            self::turn($now);
        }
        self::$buffer .= $lines;
        if (isset(self::$buffer[65_536])) {
            self::flush();
        }
    }

    public static function now(): int
    {
        return self::$is_by_day ? \time() : (int) (\hrtime(true) / 1e9);
    }

    /** The second of the lines from here on. */
    public static function turn(int $second): void
    {
        self::$second = $second;
        self::$buffer .= "time i:$second;\n";
    }

    /** Removes the line of the last call, and its reply if replies are recorded, unless it is written already. */
    public static function take_back(string $line, string $reply): void
    {
        if (\str_ends_with(self::$buffer, $line) && \str_ends_with(self::$replies, $reply)) {
            self::$buffer = \substr(self::$buffer, 0, -\strlen($line));
            self::$replies = \substr(self::$replies, 0, \strlen(self::$replies) - \strlen($reply));
        }
    }

    /** Appends what APCu answered to the last lines. */
    public static function reply(string $lines): void
    {
        self::$replies .= self::$is_asking ? '' : $lines;
    }

    /** Counts a call that a script can't express, or a value that a string replaces; keys are written with the replies. */
    public static function left(string $kind, mixed $keys = null, bool $has_stand_in = false): void
    {
        $how = $has_stand_in ? 'stands' : 'left';
        self::$left["$how\t$kind"] = (self::$left["$how\t$kind"] ?? 0) + 1;
        if (self::$tells_replies) {
            self::$replies .= "$how $kind " . \serialize(\is_string($keys) ? [$keys] : $keys) . "\n";
        }
    }

    /** Ends the recording and says why, once. The site goes on. */
    public static function stop(string $why): void
    {
        if (!self::$is_off) {
            self::$is_off = true;
            \error_log("apcu record: $why; recording is off");
        }
    }

    /** Writes what was not written yet. */
    public static function flush(): void
    {
        if (self::$buffer === '' && self::$replies === '' && self::$left === []) {
            return;
        }
        // Neither PHP's messages nor the site's own handler of errors.
        \set_error_handler(static function (int $level, string $reason): bool {
            self::$reason = $reason;
            return true;
        });
        try {
            self::write_all();
        } catch (\Throwable $fault) {
            self::stop($fault->getMessage());
        } finally {
            \restore_error_handler();
            self::$buffer = self::$replies = '';
            self::$left = [];
        }
    }

    private static function write_all(): void
    {
        // A process that was forked has a file of its own.
        if (!self::$is_off && self::$process !== \getmypid()) {
            self::open();
        }
        if (self::$is_off) {
            return;
        }
        self::write(self::$buffer);
        self::$second_before = self::$second;
        foreach (self::$left as $kind => $count) {
            self::append('left', "$kind\t$count\n");
        }
        self::append('site', self::counts());
        if (self::$replies !== '') {
            self::append('replies', self::$replies);
        }
        if (self::$size > self::MOST) {
            self::stop(self::$path . '.apcu is full');
        }
    }

    private static function open(): void
    {
        self::$process = (int) \getmypid();
        self::$path = Folder::path(self::$process);
        $file = \fopen(self::$path . '.apcu', 'ab');
        if ($file === false) {
            throw new \RuntimeException(self::$reason);
        }
        self::$file = $file;
        self::$size = \fstat($file)['size'];
        if (self::$size === 0) {
            // What was stored is for the site's eyes.
            \chmod(self::$path . '.apcu', 0600);
            self::append('site', self::setting());
            self::$buffer = "worker\n" . self::start() . self::$buffer;
        } elseif (self::$size > self::MOST) {
            // It was reported when the file became full.
            self::$is_off = true;
        } else {
            self::$buffer = self::start() . self::$buffer;
        }
    }

    /** APCu's setting. */
    private static function setting(): string
    {
        $names = ['shm_size', 'entries_hint', 'ttl', 'use_request_time'];
        return \implode("\t", \array_map(static fn (string $name): string => (string) \ini_get("apc.$name"), $names)) . "\n";
    }

    /** What APCu has counted so far, and the moment. */
    private static function counts(): string
    {
        self::$is_asking = true;
        $told = \apcu_cache_info(true);
        self::$is_asking = false;
        $names = ['num_hits', 'num_misses', 'num_inserts', 'expunges', 'num_entries', 'mem_size'];
        $counts = \array_map(static fn (string $name): string => \sprintf('%d', $told[$name] ?? 0), $names);
        return \hrtime(true) . "\t" . \implode("\t", $counts) . "\n";
    }

    /** The start of the request, and the second of the first line if a request continues. */
    private static function start(): string
    {
        $later = self::$second_before === self::$request ? '' : 'time i:' . self::$second_before . ";\n";
        return 'request i:' . self::$request . ";\n$later";
    }

    /** Appends to the script. If there is no room for all bytes, none of them is kept, so that it ends with a whole line. */
    private static function write(string $lines): void
    {
        $written = \fwrite(self::$file, $lines);
        if ($written !== \strlen($lines)) {
            \ftruncate(self::$file, self::$size);
            throw new \RuntimeException(self::$path . '.apcu: ' . self::$reason);
        }
        self::$size += $written;
    }

    private static function append(string $ending, string $lines): void
    {
        $path = self::$path . ".$ending";
        if (\file_put_contents($path, $lines, \FILE_APPEND) !== \strlen($lines)) {
            throw new \RuntimeException("$path: " . self::$reason);
        }
        \chmod($path, 0600);
    }
}
