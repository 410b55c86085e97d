#!/usr/bin/env bash
# SPDX-License-Identifier: MIT
# Random calls on few keys are answered as PHP's APCu answers them: those of a moment; those of some twenty seconds, in
# which rows expire; and those of four workers at once, which PHP makes one by one in the order of the printed journal.
# What docs/DIFFERENCES.md names is left out, and how many bytes rows take.
# Usage: checks/calls/fuzz.sh [SEEDS [PROGRAM]]; it needs php with apcu.
set -eu
here=$(cd "$(dirname "${BASH_SOURCE[0]}")" && pwd)
seeds=${1:-20}
program=${2:-$here/../../crates/apcu_run/out/apcu_run}
scratch=$(mktemp -d)
trap 'rm -rf "$scratch"' EXIT

# Plays a seed's calls of a kind, this many per worker, on both, with an `apc.ttl`.
play() {
    local how=$1 seed=$2 count=$3 ttl=$4 of="$scratch/$1.$2"
    local settings=(-d apc.enable_cli=1 -d apc.shm_size=64M -d apc.use_request_time=0 -d apc.ttl="$ttl")
    php "${settings[@]}" "$here/fuzz.php" "$how" "$seed" "$count" script >"$of.script"
    "$program" --shm-size 64M --ttl "$ttl" <"$of.script" >"$of.all"
    sed -e '1,/^journal$/d' "$of.all" >"$of.journal"
    php "${settings[@]}" "$here/fuzz.php" "$how" "$seed" "$count" printed <"$of.journal" >"$of.wanted"
    [ "$how" = workers ] || sed -i -e '1d' "$of.all"
    LC_ALL=C sed -E -e '/^journal$/,$d' -e 's/("mem_size"|"size");i:[0-9]+;/\1;i:0;/' "$of.all" >"$of.printed"
    cmp "$of.wanted" "$of.printed" || { echo "$how, seed $seed: another reply" >&2; return 1; }
}

runs=()
for seed in $(seq 1 "$seeds"); do
    # Most of this is waiting.
    play seconds "$seed" 400 $((seed % 4)) &
    runs+=($!)
    play moment "$seed" 2000 0
    play workers "$seed" 2000 0
done
for run in "${runs[@]}"; do wait "$run"; done
echo "$seeds runs of 2000 calls, of 400 over some seconds, and of 2000 of each of four workers, answered as by APCu"
