#!/usr/bin/env bash
# SPDX-License-Identifier: MIT
# Bytes of memory for each place of a graph of a million integers: the most that apcu_run held while it read and stored
# its text, less the text itself and what a run without a script holds. Needs GNU time.
# Usage: bench/notation/weight.sh [PROGRAM]
set -eu
here=$(cd "$(dirname "${BASH_SOURCE[0]}")" && pwd)
program=${1:-$here/../../crates/apcu_run/out/apcu_run}
scratch=$(mktemp -d)
trap 'rm -rf "$scratch"' EXIT
places=1000001

# The most memory that a run over a script held, in bytes.
held() {
    env time -f %M -o "$scratch/held" "$program" <"$1" >"$scratch/out"
    echo $(($(cat "$scratch/held") * 1024))
}

: >"$scratch/empty"
{
    printf 'worker\napcu_store s:1:"a"; '
    awk -v kind=integers -v size=$((places - 1)) -f "$here/texts.awk"
    printf '\n'
} >"$scratch/script"
bytes=$(wc -c <"$scratch/script")
echo "$(((($(held "$scratch/script") - $(held "$scratch/empty")) - bytes) / places)) bytes a place"
