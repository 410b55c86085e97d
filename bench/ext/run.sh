#!/usr/bin/env bash
# SPDX-License-Identifier: MIT
# Processor time of each call of PHP compared with PHP's APCu, in one process, in one run: keys of 10 and of 60 bytes, 1,000
# and 100,000 rows of four kinds each, and 10,000 on the 4,096 slots of an ini file without apc.entries_hint. Both are
# measured in turn in each round; a ratio is ours / APCu's. Then large values, with kept values and without, by kept.sh.
# Usage: bench/ext/run.sh [SO]; it needs php-apcu. SIZES='ROWS[/SLOTS]..' in the environment are other rows, on as many
# slots or on four times as many. ROUNDS and NOISY are those of bench/quiet.sh.
set -eu
here=$(cd "$(dirname "${BASH_SOURCE[0]}")/../../php/ext/checks" && pwd)
. "$here/common.sh"
here=$(cd "$(dirname "${BASH_SOURCE[0]}")" && pwd)
. "$here/../quiet.sh"

# Times of both, ours first: bytes of a key, rows, slots.
both() {
    local so
    for so in "$ours" "$base"; do
        php_with "$so" -d apc.shm_size=256M -d apc.entries_hint="$3" "$here/calls.php" "$1" "$2" times | tr '\n' ' '
    done
    echo
}

settings_of "$ours" >/dev/null
settings_of "$base" >/dev/null
php_with "$base" "$here/calls.php" 10 1 names >"$scratch/names"
echo '| ratio | ours, ns | APCu, ns | key, bytes | rows | slots | call |'
echo '|---|---|---|---|---|---|---|'
for size in ${SIZES:-1000/4096 10000/4096 100000}; do
    rows=${size%/*}
    case $size in */*) slots=${size#*/} ;; *) slots=$((rows * 4)) ;; esac
    for bytes in 10 60; do
        measured 1 both "$bytes" "$rows" "$slots"
        tr ' ' '\n' <<<"$found" | awk -v bytes="$bytes" -v rows="$rows" -v slots="$slots" '
            NR == FNR { time[NR] = $1; next }
            { name[++count] = $0 }
            END {
                for (i = 1; i <= count; i++) {
                    ours = time[i]; apcu = time[i + count]
                    ratio = apcu > 0 ? sprintf("%.2f", ours / apcu) : "-"
                    printf "| %s | %s | %s | %d | %d | %d | %s |\n", ratio, ours, apcu, bytes, rows, slots, name[i]
                }
            }' - "$scratch/names"
    done
done
tell_of_quiet
echo
"$here/kept.sh" "$ours"
