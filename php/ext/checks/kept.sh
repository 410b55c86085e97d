#!/usr/bin/env bash
# SPDX-License-Identifier: MIT
# Kept values stay as they are: PHP's functions, and the language's ways to write, over kept values that can't be written
# (kept-functions.php, and kept-language.php without opcache, with it, and with its JIT); processes that are killed while
# they store, and forked ones (kept-kills.php); `php -S` with eight workers in a small cache (kept-page.php).
# Usage: php/ext/checks/kept.sh [SO]; without SO it builds the extension as such a check wants it, in a scratch folder,
# as CPPFLAGS=-DAPCU_KEPT_READ_ONLY php/ext/build.sh does. It needs php with pcntl, posix and ffi. CALLS=N calls each
# function N times for each of SEEDS (10, 1), KILLS=N kills N processes (300), PAGES=N asks for N pages (4000).
set -eu
here=$(cd "$(dirname "${BASH_SOURCE[0]}")" && pwd)
built=
if [ -z "${1:-${APCU_SO:-}}" ]; then
    built=$(mktemp -d)
    trap 'rm -rf "$built"' EXIT
    mkdir "$built/php"
    cp -R "$here/.." "$built/php/ext"
    cp -R "$here/../../../capi" "$built/capi"
    CPPFLAGS="${CPPFLAGS:-} -DAPCU_KEPT_READ_ONLY" "$built/php/ext/build.sh" >/dev/null
    set -- "$built/php/ext/modules/apcu.so"
fi
. "$here/common.sh"
if [ -n "$built" ]; then trap 'clean_up; rm -rf "$built"' EXIT; fi
status=0
settings_of "$ours" >/dev/null

# PHP with kept values: kept_php ARGUMENT..
kept_php() { php_with "$ours" -d apc.kept_size=16M -d memory_limit=1G -d opcache.file_update_protection=0 "$@"; }

for seed in ${SEEDS:-1}; do
    # Modules print what they find to the standard error, and write files.
    (mkdir -p "$scratch/files" && cd "$scratch/files" &&
        kept_php "$here/kept-functions.php" "$seed" "${CALLS:-10}" 2>"$scratch/errors") || {
        status=1
        tail -n 3 "$scratch/errors" >&2
    }
done

hot=(-d opcache.jit_buffer_size=32M -d opcache.jit_hot_loop=1 -d opcache.jit_hot_func=1 -d opcache.jit_hot_return=1
    -d opcache.jit_hot_side_exit=1)
for mode in 'no opcache' opcache function tracing; do
    case $mode in
        'no opcache') settings=(-d opcache.enable_cli=0) ;;
        opcache) settings=(-d opcache.enable_cli=1) ;;
        *) settings=(-d opcache.enable_cli=1 -d opcache.jit="$mode" "${hot[@]}") ;;
    esac
    echo "$mode:"
    kept_php "${settings[@]}" "$here/kept-language.php" "$(mktemp -d "$scratch/language.XXXXXX")" 2>&1 || status=1
done

kept_php -d error_log="$scratch/log" "$here/kept-kills.php" "${KILLS:-300}" || status=1

for serializer in php igbinary; do
    if [ "$serializer" != php ] && ! php -m | grep -qx "$serializer"; then continue; fi
    log="$scratch/server.$serializer"
    : >"$log"
    PHP_CLI_SERVER_WORKERS=8 PHP_INI_SCAN_DIR=$(settings_of "$ours") php -d apc.enable_cli=1 -d apc.shm_size=3M -d apc.kept_size=1M \
        -d apc.serializer="$serializer" -S 127.0.0.1:0 -t "$here" >"$log" 2>&1 &
    server=$!
    started+=("$server")
    address=
    for ((i = 0; i < 100; i++)); do
        address=$(sed -n -E 's,.*http://([0-9.:]+)\) started.*,\1,p' "$log" | head -n 1)
        [ -z "$address" ] || break
        sleep 0.1
    done
    echo "$serializer:"
    php_with "$ours" "$here/kept-clients.php" "$address" "${PAGES:-4000}" 8 || status=1
    if grep -Ei 'fatal|warning|segmentation' "$log"; then status=1; fi
    # The workers of `php -S` do not end with it.
    read -r -a workers <"/proc/$server/task/$server/children" || true
    kill "${workers[@]}" "$server" 2>/dev/null || true
    wait "$server" 2>/dev/null || true
done
exit "$status"
