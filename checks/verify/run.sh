#!/usr/bin/env bash
# SPDX-License-Identifier: MIT
# The program judges its own outputs with --verify: each one is `yes`, of the examples, of the scripts of calls/, pools/
# and bench/play and of random ones of 1 to 64 workers; and none is that has been changed so that it is no longer a legal
# one. Then the time and memory of a verdict on 64 MB of scripts and their output, compared with those of the run
# itself.
# Usage: checks/verify/run.sh [COUNT [PROGRAM]]; it needs php. COUNT is the number of random scripts.
set -eu
here=$(cd "$(dirname "${BASH_SOURCE[0]}")" && pwd)
count=${1:-1000}
program=${2:-$here/../../crates/apcu_run/out/apcu_run}
scratch=$(mktemp -d)
trap 'rm -rf "$scratch"' EXIT
. "$here/../../bench/play/scripts.sh"

for kind in moment seconds workers; do
    php "$here/../calls/fuzz.php" "$kind" 1 1000 script >"$scratch/calls.$kind"
done
for keys in apart one counter; do mixed 4 500 "$keys" >"$scratch/play.$keys"; done
texts 4 50 10000 10 >"$scratch/play.texts"
# Each of four workers calls the same pools.
for seed in 1 2 3 4; do php "$here/../pools/scripts.php" moment "$seed" 300; done >"$scratch/pools.moment"
php "$here/judge.php" "$program" "$count" "$here"/../../examples/*.apcu "$here"/../../examples/*/*.apcu \
    "$scratch"/calls.* "$scratch"/play.* "$scratch"/pools.*

# Scripts of four workers that store texts of 100 bytes and fetch them, this many times each.
stored_and_fetched() {
    awk -v pairs="$1" 'BEGIN {
        text = sprintf("%100s", "")
        gsub(/ /, "z", text)
        for (w = 0; w < 4; w++) {
            print "worker"
            for (i = 0; i < pairs; i++) {
                key = sprintf("s:5:\"k%d.%02d\";", w, i % 64)
                print "apcu_store " key " s:100:\"" text "\";"
                print "apcu_fetch " key
            }
        }
    }'
}

# The least of three times in seconds, and the most memory in MB, of the program with these words on an input.
spent() {
    local input=$1
    shift
    for _ in 1 2 3; do
        env time -f '%e %M' -o "$scratch/time" "$program" "$@" <"$input" >"$scratch/printed"
        cat "$scratch/time"
    done | awk 'NR == 1 || $1 < s { s = $1 } $2 > m { m = $2 } END { printf "%.2f %d\n", s, m / 1024 }'
}

echo
printf '%-34s %9s %7s %7s %9s %9s %6s\n' 'four workers, 64 MB' events run_s run_MB verdict_s verdict_MB ratio
for what in 'texts of 100 bytes' 'one counter'; do
    case $what in
        texts*) stored_and_fetched 59000 >"$scratch/script" ;;
        *) mixed 4 470000 counter >"$scratch/script" ;;
    esac
    run=$(spent "$scratch/script")
    events=$(sed '1,/^journal$/d' "$scratch/printed" | wc -l)
    cat "$scratch/script" "$scratch/printed" >"$scratch/input"
    verdict=$(spent "$scratch/input" --verify "$(wc -c <"$scratch/script")")
    [ "$(cat "$scratch/printed")" = yes ] || { echo "$what: another verdict" >&2; exit 1; }
    echo "$run $verdict" | awk -v what="$what" -v events="$events" '{
        printf "%-34s %9d %7s %7d %9s %9d %6.2f\n", what, events, $1, $2, $3, $4, $3 / $1
    }'
done
