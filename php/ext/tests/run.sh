#!/usr/bin/env bash
# SPDX-License-Identifier: MIT
# The quick tests of the extension, by PHP's run-tests.php; each failure with its difference. Over PHP's APCu those are
# skipped that show what only this extension does.
# Usage: php/ext/tests/run.sh [SO]; it needs php-dev.
set -eu
here=$(cd "$(dirname "${BASH_SOURCE[0]}")" && pwd)
. "$here/../checks/common.sh" >/dev/null
runner=$(php-config --extension-dir)/build/run-tests.php
[ -f "$runner" ] || { echo "no $runner: apt-get install php-dev" >&2; exit 1; }
mkdir "$scratch/tests"
# Tests look for a file of this name.
cp "$ours" "$scratch/apcu.so"
cp "$here"/*.phpt "$here"/*.inc "$scratch/tests/"
status=0
cd "$scratch"
PHP_INI_SCAN_DIR=$(settings_of "$scratch/apcu.so") NO_INTERACTION=1 TEST_PHP_EXECUTABLE=$(command -v php) timeout 3600 \
    php -n "$runner" -q -j2 --show-diff --set-timeout 600 -W "$scratch/all" tests >"$scratch/log" 2>&1 </dev/null || status=1
if [ "$status" != 0 ]; then cat "$scratch/log"; fi
sed -n -E -e 's/.*SKIP.*\[tests\/(.*)\.phpt\] reason: (.*)/skipped: \1: \2/p' "$scratch/log"
count() { grep -Ec "^($1)" "$scratch/all" || true; }
failed=$(count 'FAILED|BORKED|WARNED|LEAKED')
echo "$(count PASSED) passed, $failed failed, $(count SKIPPED) skipped"
[ "$status$failed" = 00 ] && [ "$(count PASSED)" != 0 ]
