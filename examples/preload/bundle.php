<?php // SPDX-License-Identifier: MIT

// A folder of files NAME.data, each a serialized value, as a bundle on standard output: the folder
// that apc.preload_path names. A file's name without .data is its key.
//
//     php examples/preload/bundle.php FOLDER > FILE

declare(strict_types=1);

$folder = $argv[1] ?? '';
if ($argc !== 2 || !is_dir($folder)) {
    fwrite(STDERR, "usage: php bundle.php FOLDER\n");
    exit(1);
}

// APCu loads the files by name, too.
$names = array_filter(scandir($folder), fn (string $name): bool => str_ends_with($name, '.data'));
foreach ($names as $name) {
    $key = substr($name, 0, -strlen('.data'));
    $value = file_get_contents("$folder/$name");
    if ($value === false) {
        fwrite(STDERR, "$folder/$name cannot be read\n");
        exit(1);
    }
    // An editor's line feed at the end of a file is no part of its value.
    echo serialize($key), ' ', rtrim($value, "\n"), "\n";
}
