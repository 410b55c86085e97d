<?php // SPDX-License-Identifier: MIT

declare(strict_types=1);

namespace ApcuRecord;

/** The folder for the files of this machine's processes. */
final class Folder
{
    /** The path of a process's files, without their endings. The folder is made if there is none. */
    public static function path(int $process): string
    {
        $folder = \getenv('APCU_RECORD_DIR');
        if ($folder === false || $folder === '') {
            $folder = self::own();
        } elseif (!\is_dir($folder)) {
            \mkdir($folder, 0700, true);
        }
        return "$folder/" . \preg_replace('/[^A-Za-z0-9.-]/', '_', (string) \gethostname()) . "-$process";
    }

    /** A folder for this user alone. It is not taken from another user, who could have put links there. */
    private static function own(): string
    {
        $user = \function_exists('posix_geteuid') ? \posix_geteuid() : 0;
        $folder = \sys_get_temp_dir() . "/apcu-record-$user";
        if (!\is_dir($folder)) {
            \mkdir($folder, 0700, true);
        }
        if (\is_link($folder) || \fileowner($folder) !== $user) {
            throw new \RuntimeException("$folder belongs to somebody else");
        }
        return $folder;
    }
}
