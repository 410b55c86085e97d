#!/usr/bin/env bash
# SPDX-License-Identifier: MIT
# Random values that PHP's serialize writes are stored and fetched, and come back byte for byte.
# Usage: checks/notation/fuzz.sh [SEEDS [PROGRAM]]; it needs php.
set -eu
here=$(cd "$(dirname "${BASH_SOURCE[0]}")" && pwd)
seeds=${1:-20}
program=${2:-$here/../../crates/apcu_run/out/apcu_run}
scratch=$(mktemp -d)
trap 'rm -rf "$scratch"' EXIT
for seed in $(seq 1 "$seeds"); do
    php "$here/fuzz.php" "$seed" 500 script >"$scratch/script"
    php "$here/fuzz.php" "$seed" 500 printed >"$scratch/wanted"
    "$program" <"$scratch/script" >"$scratch/printed"
    cmp "$scratch/wanted" "$scratch/printed" || { echo "seed $seed: another text came back"; exit 1; }
done
echo "$seeds runs of 500 values came back"
