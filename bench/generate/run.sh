#!/usr/bin/env bash
# SPDX-License-Identifier: MIT
# Nanoseconds a call of generated runs with 1, 2 and 4 workers, and in the same run the same calls in PHP on its APCu,
# in as many forked processes (if php with apcu and pcntl is installed); and the most memory that a run of 64 workers
# takes. `run` is the whole program, which draws each call before it makes it, without what a run of no calls takes;
# `php` is the loop of the calls alone, whose numbers were drawn before. Both count on the same counters, which
# are compared. A figure is the lowest of three rounds, which are kept only if the machine is quiet (quiet.sh).
# Usage: bench/generate/run.sh [PROGRAM [CALLS [CALLS-OF-64]]]
set -eu
here=$(cd "$(dirname "${BASH_SOURCE[0]}")" && pwd)
program=${1:-$here/../../crates/apcu_run/out/apcu_run}
calls=${2:-1000000}
most=${3:-65000}
scratch=$(mktemp -d)
trap 'rm -rf "$scratch"' EXIT
# The large pages that the wrapper asks for.
export GLIBC_TUNABLES=glibc.malloc.hugetlb=1
. "$here/../quiet.sh"
. "$here/parts.sh"

php=
if php_has apcu pcntl; then php=php; fi

# The time of the program with this many workers, and of PHP.
both() {
    local run theirs=-
    run=$(generated_run "$program" "$1" "$calls")
    if [ -n "$php" ]; then
        theirs=$(generated_php "$1" "$calls")
        check_counters "$1 workers"
    fi
    echo "$run $theirs"
}

echo "$calls calls of each worker"
printf '%7s %7s %12s %12s\n' workers ratio run_ns/call php_ns/call
for workers in 1 2 4; do
    measured "$workers" both "$workers"
    echo "$found" | awk -v workers="$workers" '{
        run = $1 == "-" ? "-" : sprintf("%.1f", $1 - $2)
        php = $1 == "-" ? "-" : $3
        ratio = php == "-" ? "-" : sprintf("%.2f", run / php)
        printf "%7d %7s %12s %12s\n", workers, ratio, run, php
    }'
done

echo
env time -f %M -o "$scratch/held" "$program" --generate "$generated_seed" --workers 64 --calls "$most" >/dev/null
echo "64 workers with $most calls each: $(awk '{ printf "%.0f", $1 / 1024 }' "$scratch/held") MB at most"
tell_of_quiet
