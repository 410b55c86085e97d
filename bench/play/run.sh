#!/usr/bin/env bash
# SPDX-License-Identifier: MIT
# Calls a second of many workers on one cache: apcu_run with 1, 2 and 4 workers, and in the same run PHP's APCu with as
# many forked processes (if php with apcu and pcntl is installed). Half of the calls fetch, a quarter stores and a
# quarter counts; each worker has keys of its own (`apart`), or all have one key and one counter (`one`). Then all
# calls count on one counter (`counter`). apcu_run is the whole program, from a script to its output; `calls` is
# less the time of as many lines `apcu_enabled`, which are read and printed and are no events. PHP's figure is that of its
# loop alone. Then microseconds of a fetch of one text of 100 bytes to 1 MB, printed whole, without the start of the
# program, alone and during stores of such texts, of which each changes all words; and of such stores alone, less the time
# of as many lines `apcu_add`, which are read and find the row. In the end seconds of one million calls of one worker, half
# of them fetches, a quarter stores and a quarter counts, from a script to its output, compared with PHP's loop. Ratios are
# of times, ours / PHP's. A figure is the lowest of three rounds, which are kept only if the machine is quiet (quiet.sh).
# Usage: bench/play/run.sh [PROGRAM]. DIVIDE=N in the environment makes one N-th of the calls, which only tests the
# script.
set -eu
here=$(cd "$(dirname "${BASH_SOURCE[0]}")" && pwd)
program=${1:-$here/../../crates/apcu_run/out/apcu_run}
divide=${DIVIDE:-1}
scratch=$(mktemp -d)
trap 'rm -rf "$scratch"' EXIT
# The large pages that the wrapper asks for.
export GLIBC_TUNABLES=glibc.malloc.hugetlb=1
. "$here/../quiet.sh"
. "$here/parts.sh"
. "$here/../generate/parts.sh"

php=
if php_has apcu pcntl; then php=php; fi

# What the two scripts take in the program, and the loop in PHP.
both_and_php() {
    local took theirs=-
    took=$(both_took "$program")
    if [ -n "$php" ]; then theirs=$(played_php "$@"); fi
    echo "$took $theirs"
}

# The same of a million generated calls, which have one script.
script_and_php() {
    local took theirs=-
    took=$(script_took "$program" "$scratch/script")
    if [ -n "$php" ]; then theirs=$(generated_php 1 "$1"); fi
    echo "$took $theirs"
}

printf '%-8s %7s %6s %12s %12s %12s\n' keys workers ratio program/s calls/s php/s
calls=$((200000 / divide))
for keys in apart one counter; do
    for workers in 1 2 4; do
        mixed "$workers" "$calls" "$keys" >"$scratch/script"
        idle "$workers" "$calls" >"$scratch/idle"
        measured "$workers" both_and_php "$keys" "$workers" "$calls"
        echo "$found" | awk -v keys="$keys" -v workers="$workers" -v n="$((workers * calls))" '{
            left = $1 - $2 > 0 ? $1 - $2 : 1
            ours = $1 != "-"
            php = ours && $3 != "-"
            printf "%-8s %7d %6s %12s %12s %12s\n", keys, workers, php ? sprintf("%.2f", left / $3) : "-",
                ours ? int(n / $1 * 1e6) : "-", ours ? int(n / left * 1e6) : "-", php ? int(n / $3 * 1e6) : "-"
        }'
    done
done

# A line of the texts' table: the bytes, what else is in it, the workers, and the calls of each.
row() {
    measured "$3" both_and_php text "$3" "$4" "$1" "$5"
    echo "$found" | awk -v b="$1" -v what="$2" -v w="$3" -v n="$4" '{
        ours = $1 != "-"
        php = ours && $3 != "-"
        printf "%-8d %6s %7d %6s %14s %14s\n", b, what, w, php ? sprintf("%.2f", ($1 - $2) / $3) : "-",
            ours ? sprintf("%.2f", ($1 - $2) / n) : "-", php ? sprintf("%.2f", $3 / n) : "-"
    }'
}

echo
printf '%-8s %6s %7s %6s %14s %14s\n' bytes stores workers ratio run_us/call php_us/call
for line in "100 200000" "10000 5000" "65536 800" "1000000 50"; do
    read -r bytes calls <<<"$line"
    calls=$(((calls + divide - 1) / divide))
    for every in 0 10; do
        for workers in 1 4; do
            texts "$workers" "$calls" "$bytes" "$every" >"$scratch/script"
            texts "$workers" 0 "$bytes" 0 >"$scratch/idle"
            row "$bytes" "$([ "$every" = 0 ] && echo none || echo "1 in $every")" "$workers" "$calls" "$every"
        done
    done
done
for line in "10000 4000" "65536 600" "1000000 40"; do
    read -r bytes calls <<<"$line"
    calls=$(((calls + divide - 1) / divide))
    stores "$calls" "$bytes"
    row "$bytes" all 1 "$calls" 1
done

if [ -n "$php" ]; then
    calls=$((1000000 / divide))
    generated "$generated_seed" "$calls" >"$scratch/script"
    measured 1 script_and_php "$calls"
    echo
    echo "$found -" | awk -v calls="$calls" '{
        ratio = $1 == "-" ? "-" : sprintf("%.2f", $1 / $2 / calls * 1e3)
        ours = $1 == "-" ? "-" : sprintf("%.2f", $1 / 1e6)
        php = $2 == "-" ? "-" : sprintf("%.2f", $2 * calls / 1e9)
        printf "%d calls: ratio %s, %s s from script to output and %s s in PHP'"'"'s loop\n", calls, ratio, ours, php
    }'
fi
tell_of_quiet
