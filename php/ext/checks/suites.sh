#!/usr/bin/env bash
# SPDX-License-Identifier: MIT
# Debian's suites for PSR-6 and PSR-16 over Symfony's cache (checks/record/suites) have the same results, test by test,
# over an extension as over PHP's APCu, under each serializer.
# Usage: php/ext/checks/suites.sh [SO]; it needs php-apcu, phpunit, php-symfony-cache, php-psr-simple-cache and
# php-cache-integration-tests, and php-igbinary for one of the serializers.
set -eu
here=$(cd "$(dirname "${BASH_SOURCE[0]}")" && pwd)
. "$here/common.sh"
suites="$here/../../../checks/record/suites"
settings_of "$base" >/dev/null
settings_of "$ours" >/dev/null
serializers=(php default)
if php -m | grep -qx igbinary; then serializers+=(igbinary); fi

# A suite's results over an extension: results NAME SO SERIALIZER FILE
results() {
    # A suite may fail; then it has to fail alike.
    timeout 300 env PHP_INI_SCAN_DIR="$(settings_of "$2")" php -d apc.enable_cli=1 -d apc.ttl=0 -d apc.use_request_time=0 \
        -d zend.assertions=1 -d apc.serializer="$3" /usr/bin/phpunit --no-configuration --do-not-cache-result \
        --bootstrap "$suites/load.php" --log-junit "$4.xml" "$suites/$1Test.php" >"$4.out" 2>&1 || true
    sed -E -e 's/ time="[^"]*"//g' "$4.xml" >"$4"
}

status=0
for serializer in "${serializers[@]}"; do
    runs=()
    # Most of this is waiting.
    for name in Pool Simple Namespaced TagAware; do
        results "$name" "$base" "$serializer" "$scratch/$serializer.$name.base" &
        runs+=($!)
        results "$name" "$ours" "$serializer" "$scratch/$serializer.$name.ours" &
        runs+=($!)
    done
    for run in "${runs[@]}"; do wait "$run"; done
    for name in Pool Simple Namespaced TagAware; do
        of="$scratch/$serializer.$name"
        printf '%-10s %-11s APCu: %s\n' "$serializer" "$name" "$(grep -E '^(OK|Tests:)' "$of.base.out")"
        printf '%-10s %-11s ours: %s\n' "$serializer" "$name" "$(grep -E '^(OK|Tests:)' "$of.ours.out")"
        if ! grep -q '<testcase' "$of.base" || ! cmp -s "$of.base" "$of.ours"; then
            diff "$of.base" "$of.ours" | head -n 20 >&2 || true
            status=1
        fi
    done
done
[ "$status" = 0 ] && echo 'the same, test by test'
exit "$status"
