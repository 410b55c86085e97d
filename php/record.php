<?php // SPDX-License-Identifier: MIT

// Set as auto_prepend_file, this records the APCu calls of a PHP site as scripts of apcu_run, one file a process.
// docs/RECORD.md says how. It needs the extensions apcu and uopz, and PHP 8.1 or later.

declare(strict_types=1);

(static function (): void {
    $missing = match (true) {
        class_exists('ApcuRecord\Script', false) => '',
        PHP_VERSION_ID < 80100 => 'this is PHP ' . PHP_VERSION . ', and it needs 8.1',
        !extension_loaded('apcu') => 'the extension apcu is not loaded',
        !extension_loaded('uopz') => 'the extension uopz is not loaded',
        (bool) ini_get('uopz.disable') => 'uopz is disabled (uopz.disable)',
        !apcu_enabled() => 'APCu is off (apc.enabled, apc.enable_cli)',
        default => null,
    };
    if ($missing === null) {
        require __DIR__ . '/record/start.php';
    } elseif ($missing !== '') {
        error_log("apcu record: $missing; nothing is recorded");
    }
})();
