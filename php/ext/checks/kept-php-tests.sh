#!/usr/bin/env bash
# SPDX-License-Identifier: MIT
# PHP's own tests of the language and of ext/standard, whose arrays are fetched (kept-rewrite.php, kept-prepend.php), have
# the same outcome with kept values as without: without opcache, with it, and with its JIT. A test counts if it passes
# without kept values.
# Usage: php/ext/checks/kept-php-tests.sh [SO [FOLDER..]]: FOLDER is one of PHP's source (Zend/tests ext/standard/tests).
# SO is best built by CPPFLAGS=-DAPCU_KEPT_READ_ONLY php/ext/build.sh. SOURCE in the environment names PHP's source, which
# is else fetched from Debian. MODES='no-opcache opcache function tracing' chooses some of these, DIFFS=1 prints how the
# output of a test differs, and JOBS=N runs N tests at once (2). It needs php-dev.
set -eu
here=$(cd "$(dirname "${BASH_SOURCE[0]}")" && pwd)
. "$here/common.sh"
runner=$(php-config --extension-dir)/build/run-tests.php
[ -f "$runner" ] || { echo "no $runner: apt-get install php-dev" >&2; exit 1; }
shift || true
[ $# -gt 0 ] || set -- Zend/tests ext/standard/tests
SOURCE=${SOURCE:-$(source_of php8.2 'php*-[0-9]*')}
read -r -a modes <<<"${MODES:-no-opcache opcache tracing}"

# Tests with a rewritten array, each at its place, with the files next to it.
for folder; do
    mkdir -p "$scratch/tests/$folder"
    cp -R "$SOURCE/$folder/." "$scratch/tests/$folder"
done
php -n -d extension=tokenizer -d display_errors=0 "$here/kept-rewrite.php" "$scratch/tests" 2>"$scratch/arrays" | sort >"$scratch/list"
echo "$(wc -l <"$scratch/list") tests with $(cat "$scratch/arrays") arrays"

# The outcome of each test of a list, a line OUTCOME, a tab, TEST: outcomes LIST TO SETTING..
outcomes() {
    local list=$1 to=$2
    shift 2
    (
        cd "$scratch/tests"
        NO_INTERACTION=1 TEST_PHP_EXECUTABLE=$(command -v php) timeout 3600 php -n "$runner" -n -q -j"${JOBS:-2}" --set-timeout 60 \
            -d extension="$ours" -d auto_prepend_file="$here/kept-prepend.php" -d opcache.file_update_protection=0 "$@" \
            -W "$to" -r "$list" >"$to.log" 2>&1 </dev/null || true
    )
    sort -o "$to" "$to"
}

status=0
for mode in "${modes[@]}"; do
    case $mode in
        no-opcache) settings=() ;;
        opcache) settings=(-d zend_extension=opcache -d opcache.enable_cli=1) ;;
        *) settings=(-d zend_extension=opcache -d opcache.enable_cli=1 -d opcache.jit="$mode" -d opcache.jit_buffer_size=32M) ;;
    esac
    outcomes "$scratch/list" "$scratch/own" "${settings[@]}" -d apc.enable_cli=1 -d apc.kept_size=0
    outcomes "$scratch/list" "$scratch/kept" "${settings[@]}" -d apc.enable_cli=1 -d apc.kept_size=16M
    comm -23 <(grep '^PASSED' "$scratch/own") <(grep '^PASSED' "$scratch/kept") | cut -f 2 >"$scratch/differ"
    # Some tests wait for a few milliseconds, and fail on a machine that is busy: those that differ run once more.
    if [ -s "$scratch/differ" ]; then
        outcomes "$scratch/differ" "$scratch/again" "${settings[@]}" -d apc.enable_cli=1 -d apc.kept_size=16M
        grep -v '^PASSED' "$scratch/again" | cut -f 2 >"$scratch/differ" || true
    fi
    echo "$mode: $(grep -c '^PASSED' "$scratch/own") pass without kept values, $(wc -l <"$scratch/differ") of these don't with them"
    while IFS= read -r test; do
        echo "  ${test#"$scratch/tests/"}"
        if [ -n "${DIFFS:-}" ] && [ -f "${test%.phpt}.diff" ]; then sed 's/^/    /' "${test%.phpt}.diff" | head -n 20; fi
        status=1
    done <"$scratch/differ"
done
exit "$status"
