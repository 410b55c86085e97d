#!/usr/bin/env bash
# SPDX-License-Identifier: MIT
# APCu's own tests over PHP's APCu and over this extension, both in one harness: PHP's run-tests.php, with no settings
# except the extension. They come from Debian's source package when this is run; SOURCE=FOLDER in the environment is an
# existing copy of it. Each test that one of both does not pass is printed, and a test that only APCu passes is a
# failure. The servers that some tests start find the extension in the folder next to the tests.
# Usage: php/ext/checks/apcu-tests.sh [SO]; it needs php-dev and php-apcu.
set -eu
here=$(cd "$(dirname "${BASH_SOURCE[0]}")" && pwd)
. "$here/common.sh"
runner=$(php-config --extension-dir)/build/run-tests.php
[ -f "$runner" ] || { echo "no $runner: apt-get install php-dev" >&2; exit 1; }
source=$(source_of_apcu)

# The results of an extension, a line for each test.
results() {
    local name=$1 so=$2 folder="$scratch/$1"
    mkdir -p "$folder/modules"
    cp -r "$source/tests" "$folder/"
    cp "$so" "$folder/modules/apcu.so"
    (cd "$folder" && NO_INTERACTION=1 TEST_PHP_EXECUTABLE=$(command -v php) timeout 600 php -n "$runner" -n -q \
        -d extension_dir="$folder/modules" -d extension=apcu.so -W "$folder/all" tests) >"$folder/log" 2>&1 </dev/null ||
        true
    sed -E -e 's,^([A-Z]+)(&[A-Z]+)?\t.*/,\1\t,' "$folder/all" | sort -k 2 >"$folder/results"
}

results apcu "$base"
results ours "$ours"
join -t $'\t' -1 2 -2 2 "$scratch/apcu/results" "$scratch/ours/results" >"$scratch/both"

# Why a test didn't pass: the first lines by which its output differs.
why() {
    local diff="$scratch/$1/tests/${2%.phpt}.diff"
    if [ -f "$diff" ]; then
        grep -E '^[0-9]*[-+]' "$diff" | head -n 4 | cut -c 1-110 | sed -e 's/^/      /'
    fi
}

printf '%-10s%-10s%s\n' APCu ours tests
cut -f 2,3 "$scratch/both" | sort | uniq -c | awk '{ printf "%-10s%-10s%d\n", $2, $3, $1 }'
echo 'Skipped over APCu:'
sed -n -E -e 's/.*SKIP.* reason: /  /p' "$scratch/apcu/log" | sort | uniq -c
status=0
while IFS=$'\t' read -r test apcu own; do
    [ "$apcu$own" != PASSEDPASSED ] || continue
    [ "$apcu$own" != SKIPPEDSKIPPED ] || continue
    echo "$test: APCu $apcu, ours $own"
    [ "$apcu" != FAILED ] || { echo '    APCu:'; why apcu "$test"; }
    [ "$own" != FAILED ] || { echo '    ours:'; why ours "$test"; }
    if [ "$apcu" = PASSED ]; then status=1; fi
done <"$scratch/both"
count=$(wc -l <"$scratch/both")
if [ "$count" -lt 50 ] || [ "$count" != "$(wc -l <"$scratch/apcu/results")" ]; then
    echo "Tests have no result of both: $count have." >&2
    status=1
fi
exit "$status"
