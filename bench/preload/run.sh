#!/usr/bin/env bash
# SPDX-License-Identifier: MIT
# The time and memory of a run that loads a bundle of some 64 MB, and one of half as many records, into a cache of 128 MB
# that has room for all, compared with a run whose script stores the same rows, if that script is no longer than
# an input may be. A record is a key of 8 bytes and a text of 100.
# Usage: bench/preload/run.sh [PROGRAM]
set -eu
here=$(cd "$(dirname "${BASH_SOURCE[0]}")" && pwd)
program=${1:-$here/../../crates/apcu_run/out/apcu_run}
scratch=$(mktemp -d)
trap 'rm -rf "$scratch"' EXIT
options=(--shm-size 128M --slots 524288)
# What a worker asks of the cache when all is loaded.
printf 'worker\napcu_fetch s:8:"k0000007";\napcu_cache_info b:1;\n' >"$scratch/asking"

# Lines of this many records, each with these bytes before it.
records() {
    awk -v records="$1" -v before="$2" 'BEGIN {
        srand(7)
        for (i = 0; i < 64; i++) {
            texts[i] = ""
            while (length(texts[i]) < 100) texts[i] = texts[i] substr("abcdefghijklmnopqrstuvwxyz", 1 + int(26 * rand()), 1)
        }
        for (i = 0; i < records; i++) printf "%ss:8:\"k%07d\"; s:100:\"%s\";\n", before, i, texts[int(64 * rand())]
    }'
}

# The least of three times in seconds, and the most memory in MB, of the program with these words on the input.
spent() {
    for _ in 1 2 3; do
        env time -f '%e %M' -o "$scratch/time" "$program" "${options[@]}" "$@" <"$scratch/input" >"$scratch/printed"
        cat "$scratch/time"
    done | awk 'NR == 1 || $1 < s { s = $1 } $2 > m { m = $2 } END { printf "%.2f %d\n", s, m / 1024 }'
}

# All records are there, and no room had to be made.
check() {
    grep -q "\"num_entries\";i:$1;s:8:\"expunges\";i:0;" "$scratch/printed" ||
        { echo "$1 records: not all are loaded" >&2; exit 1; }
}

printf '%9s %10s %9s %8s %9s %8s\n' records bytes bundle_s bundle_MB script_s script_MB
for count in 266000 532000; do
    records "$count" '' >"$scratch/bundle"
    bytes=$(wc -c <"$scratch/bundle")
    cat "$scratch/bundle" "$scratch/asking" >"$scratch/input"
    loaded=$(spent --preload "$bytes")
    check "$count"
    theirs='- -'
    # One worker stores and asks.
    { echo worker; records "$count" 'apcu_store '; sed 1d "$scratch/asking"; } >"$scratch/input"
    if [ "$(wc -c <"$scratch/input")" -le 67108864 ]; then
        theirs=$(spent)
        check "$count"
    fi
    echo "$count $bytes $loaded $theirs" | awk '{ printf "%9d %10d %9s %8s %9s %8s\n", $1, $2, $3, $4, $5, $6 }'
done
