<?php // SPDX-License-Identifier: MIT

// Puts the recorder before each call of APCu.

declare(strict_types=1);

namespace ApcuRecord;

require __DIR__ . '/Folder.php';
require __DIR__ . '/Script.php';
require __DIR__ . '/Text.php';
require __DIR__ . '/Calls.php';
require __DIR__ . '/Iterators.php';
require __DIR__ . '/Entries.php';

// By default uopz makes PHP continue after `exit`.
\uopz_allow_exit(true);
Script::begin();
if (Script::$tells_replies) {
    require __DIR__ . '/ReplyTexts.php';
    require __DIR__ . '/hooks_replies.php';
} else {
    require __DIR__ . '/hooks.php';
}
require __DIR__ . '/hooks_entry.php';
require __DIR__ . '/hooks_iterators.php';
