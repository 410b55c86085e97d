#!/usr/bin/env bash
# SPDX-License-Identifier: MIT
# A process that dies at any instruction of a call leaves the cache as it was before, as it is after, or
# empty, and the next process can use it (steps.php). Each kind of call is stepped through by ptrace (steps.c), and
# killed at POINTS places, one in each part; a long one at moments of its time. The same over PHP's APCu for one call,
# which is only reported.
# Usage: php/ext/checks/steps.sh [SO [POINTS]]: 150 places a call without POINTS, and 0 is each instruction. It needs cc
# and php with pcntl and posix.
set -eu
here=$(cd "$(dirname "${BASH_SOURCE[0]}")" && pwd)
. "$here/common.sh"
points=${2:-150}
cc -O2 -o "$scratch/steps" "$here/steps.c"

# What is tried over an extension: try SO CALL POINTS
try() {
    # timeout's own group holds all processes, and all of them are gone at its end, or at this script's.
    PHP_INI_SCAN_DIR=$(settings_of "$1") timeout -s KILL 3600 php -d apc.enable_cli=1 -d apc.use_request_time=0 \
        -d apc.shm_size=1M -d apc.entries_hint=512 -d error_log=/dev/null "$here/steps.php" "$scratch/steps" "$2" "$3" 2>&1 &
    started=("-$!")
    wait "$!"
}
trap 'exit 1' TERM INT

status=0
for call in 'store over' 'store new' 'store two' 'store with no room' add 'add, there' fetch 'fetch long' exists delete 'delete found' inc \
    'inc new' cas entry clear walk told; do
    try "$ours" "$call" "$points" || status=1
done
echo 'APCu:'
try "$base" 'store over' 150 || true
exit "$status"
