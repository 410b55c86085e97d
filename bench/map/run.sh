#!/usr/bin/env bash
# SPDX-License-Identifier: MIT
# The time of a cache's map: runs with and without --map 1, in turn, in a cache of 128 MB with half a million and with a
# million rows, of which each tenth was deleted again, so that there are as many free runs. Twice the rows should take
# twice the time: the rows are walked once and sorted by their places.
# Usage: bench/map/run.sh [PROGRAM]
set -eu
here=$(cd "$(dirname "${BASH_SOURCE[0]}")" && pwd)
program=${1:-$here/../../crates/apcu_run/out/apcu_run}
scratch=$(mktemp -d)
trap 'rm -rf "$scratch"' EXIT

# A script that stores this many rows of 16 words, a thousand with each call, and deletes each tenth.
script() {
    awk -v rows="$1" 'BEGIN {
        print "worker"
        for (i = 0; i < rows; i++) {
            if (i % 1000 == 0) printf "apcu_store a:1000:{"
            printf "s:8:\"k%07d\";i:%d;", i, i
            if (i % 1000 == 999) print "} N;"
        }
        for (i = 0; i < rows; i += 10) {
            if (i % 10000 == 0) printf "apcu_delete a:1000:{"
            printf "i:%d;s:8:\"k%07d\";", i % 10000 / 10, i
            if (i % 10000 == 9990) print "}"
        }
    }'
}

# Seconds and MB of a run with a map (1) or without (0).
spent() {
    env time -f '%e %M' -o "$scratch/time" "$program" --shm-size 128M --slots 524288 --map "$1" \
        <"$scratch/script" >"$scratch/printed"
    cat "$scratch/time"
}

printf '%9s %10s %7s %7s %11s %8s %11s\n' rows map_lines run_s run_MB with_map_s with_MB map_ns/line
for rows in 500000 1000000; do
    script "$rows" >"$scratch/script"
    for _ in 1 2 3 4 5; do
        echo "0 $(spent 0)"
        echo "1 $(spent 1)"
    done >"$scratch/times"
    lines=$(sed '1,/^map$/d' "$scratch/printed" | grep -cE '^(row|removed|free) [0-9]')
    # The script's own rows and gaps, and the rest of the cache.
    [ "$lines" = $((rows + 1)) ] || { echo "$rows rows: $lines lines in the map" >&2; exit 1; }
    awk -v rows="$rows" -v lines="$lines" '
        !($1 in s) || $2 < s[$1] { s[$1] = $2 }
        $3 > m[$1] { m[$1] = $3 }
        END {
            printf "%9d %10d %7.2f %7d %11.2f %8d %11.0f\n", rows, lines, s[0], m[0] / 1024, s[1], m[1] / 1024,
                (s[1] - s[0]) / lines * 1e9
        }' "$scratch/times"
done
