#!/usr/bin/env bash
# SPDX-License-Identifier: MIT
# Random calls of pools are answered as a PSR-16 cache over PHP's APCu answers them, reply by reply: those of a moment,
# and those of some twenty seconds in which rows expire. What is no name or key of a pool is refused by both.
# Usage: checks/pools/run.sh [SEEDS [PROGRAM]]; it needs php with apcu.
set -eu
here=$(cd "$(dirname "${BASH_SOURCE[0]}")" && pwd)
seeds=${1:-20}
program=${2:-$here/../../crates/apcu_run/out/apcu_run}
scratch=$(mktemp -d)
trap 'rm -rf "$scratch"' EXIT
settings=(-d apc.enable_cli=1 -d apc.shm_size=64M -d apc.ttl=0 -d apc.use_request_time=0)

# Plays a seed's calls of a kind, this many, on both.
play() {
    local of="$scratch/$1.$2"
    php "$here/scripts.php" "$1" "$2" "$3" >"$of.script"
    "$program" --shm-size 64M <"$of.script" | LC_ALL=C sed '/^journal$/,$d' >"$of.printed"
    php "${settings[@]}" "$here/play.php" "$of.script" >"$of.wanted"
    cmp "$of.wanted" "$of.printed" || { echo "$1, seed $2: another reply" >&2; return 1; }
}

# Both refuse a line.
refuse() {
    local status=0
    printf 'worker\n%s\n' "$1" >"$scratch/script"
    "$program" <"$scratch/script" >"$scratch/printed" 2>"$scratch/message" || status=$?
    if [ "$status" != 2 ] || ! grep -q '^apcu_run: script: byte [0-9]*: argument$' "$scratch/message"; then
        echo "$1: status $status, $(cat "$scratch/message")" >&2
        return 1
    fi
    if php "${settings[@]}" "$here/play.php" "$scratch/script" >/dev/null 2>&1; then
        echo "$1: PHP takes it" >&2
        return 1
    fi
}

runs=()
for seed in $(seq 1 "$seeds"); do
    # Most of this is waiting.
    play seconds "$seed" 400 &
    runs+=($!)
    play moment "$seed" 2000
done
for run in "${runs[@]}"; do wait "$run"; done
echo "$seeds runs of 2000 calls and of 400 over some seconds, answered as by a PSR-16 cache over APCu"

count=0
for byte in '{' '}' '(' ')' '/' '\' '@' ':'; do
    refuse "pool_has s:1:\"p\"; s:3:\"a${byte}b\";"
    count=$((count + 1))
done
for name in '' 'a b' 'a-b' '{p}' "$(printf '%65s' '' | tr ' ' n)"; do
    refuse "pool_has s:${#name}:\"$name\"; s:1:\"a\";"
    count=$((count + 1))
done
refuse 'pool_get s:1:"p"; s:0:"";'
refuse 'pool_get s:1:"p"; i:5;'
refuse 'pool_set s:1:"p"; s:1:"a"; i:5; s:1:"5";'
refuse 'pool_get_multiple s:1:"p"; a:1:{i:0;s:2:"a:";}'
refuse 'pool_set_multiple s:1:"p"; a:1:{s:0:"";i:5;}'
echo "$((count + 5)) lines refused by both"
