#!/usr/bin/env bash
# SPDX-License-Identifier: MIT
# Plays the stored runs of this folder on the built program and compares what it prints, by cram: README.md
# Usage: tests/run.sh [PROGRAM [FILE.t..]]; PROGRAM is by default crates/apcu_run/out/apcu_run. It needs python3-cram.
# The last line is 'N passed, N failed'. Statuses: 0 if none failed, 1 if one did, 69 if there is no cram or no program.
set -u
here=$(cd "$(dirname "${BASH_SOURCE[0]}")" && pwd)
program=$(realpath "${1:-$here/../crates/apcu_run/out/apcu_run}")
shift $(($# > 0))
files=("$@")
[ $# -gt 0 ] || files=("$here"/*.t)
cram=$(command -v cram || command -v cram3) || {
    echo 'tests/run.sh: there is no cram: apt-get install python3-cram' >&2
    exit 69
}
if [ ! -x "$program" ]; then
    echo "tests/run.sh: $program is not built: ./prove builds it" >&2
    exit 69
fi
# cram passes PATH on to the runs.
bin=$(mktemp -d) || exit 69
trap 'rm -rf "$bin"' EXIT
ln -s "$program" "$bin/apcu_run"
PATH=$bin:$PATH "$cram" --shell=/bin/bash "${files[@]}" >"$bin/said" 2>&1
status=$?
# cram ends with its count: # Ran N tests, N skipped, N failed.
read -ra count <<<"$(tail -n 1 "$bin/said" | tr -dc '0-9 ')"
sed '1d;$d' "$bin/said"
if [ "${#count[@]}" != 3 ]; then exit 1; fi
echo "$((count[0] - count[1] - count[2])) passed, $((count[1] + count[2])) failed"
exit "$status"
