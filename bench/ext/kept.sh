#!/usr/bin/env bash
# SPDX-License-Identifier: MIT
# Processor time of a fetch of large values with apc.kept_size and without, compared with PHP's APCu under each of its
# serializers and with `include` of a file that opcache has; then what a value costs that another process replaces before
# each fetch; then the memory of a process that has fetched 50 configurations three times each.
# Usage: bench/ext/kept.sh [SO]; it needs php-apcu and php-igbinary. ROUNDS and NOISY in the environment are those of
# bench/quiet.sh.
set -eu
here=$(cd "$(dirname "${BASH_SOURCE[0]}")/../../php/ext/checks" && pwd)
. "$here/common.sh"
here=$(cd "$(dirname "${BASH_SOURCE[0]}")" && pwd)
. "$here/../quiet.sh"
settings_of "$ours" >/dev/null
settings_of "$base" >/dev/null
has_igbinary=
if php -m | grep -qx igbinary; then has_igbinary=1; fi

# times SO WHAT SETTING..
times() {
    local so=$1 what=$2
    shift 2
    php_with "$so" -d apc.shm_size=128M -d memory_limit=1G -d opcache.enable_cli=1 -d opcache.validate_timestamps=0 "$@" \
        "$here/kept.php" "$what" "$scratch" | tr '\n' ' '
}

# One line of numbers: values of the first column, then of the second ..
fetches() {
    times "$ours" fetch -d apc.kept_size=8M
    times "$ours" include
    times "$ours" fetch
    times "$base" fetch -d apc.serializer=php
    times "$base" fetch -d apc.serializer=default
    if [ -n "$has_igbinary" ]; then times "$base" fetch -d apc.serializer=igbinary; fi
    echo
}

changes() {
    times "$ours" changed -d apc.kept_size=8M
    times "$ours" changed
    times "$base" changed -d apc.serializer=php
    echo
}

memory() {
    times "$ours" memory -d apc.kept_size=64M
    times "$ours" memory
    times "$base" memory -d apc.serializer=php
    echo
}

# A row for each name, of what was measured column by column: table NAMES
table() {
    tr ' ' '\n' <<<"$found" | awk '
        NR == FNR { name[NR] = $0; count = NR; next }
        { cell[FNR] = $1; all = FNR }
        END {
            for (i = 1; i <= count; i++) {
                row = "| " name[i] " |"
                for (j = i; j <= all; j += count) row = row " " cell[j] " |"
                print row
            }
        }' "$1" -
}

php_with "$base" "$here/kept.php" names "$scratch" >"$scratch/names"
echo 'memory: 50 configurations' >"$scratch/memory"
echo "| ns of a fetch | kept | include | ours, php | APCu, php | APCu, default |${has_igbinary:+ APCu, igbinary |}"
echo "|---|---|---|---|---|---|${has_igbinary:+---|}"
measured 1 fetches
table "$scratch/names"
echo
echo '| ns of a store and a fetch | with apc.kept_size | without | APCu, php |'
echo '|---|---|---|---|'
measured 1 changes
table "$scratch/names"
echo
echo '| KB of the process itself | with apc.kept_size=64M | without | APCu, php |'
echo '|---|---|---|---|'
measured 1 memory
table "$scratch/memory"
tell_of_quiet
