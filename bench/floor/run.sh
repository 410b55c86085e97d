#!/usr/bin/env bash
# SPDX-License-Identifier: MIT
# Floors in C, which promise nothing and only show what this machine can do: the times of locks, atomic steps and fresh
# memory (costs.c), of the calls of a cache over the same words and rows with an index of gaps and no lock (cache.c), and
# of printing fetched texts if all output is held, if it is written as a buffer fills, and if none is
# made (fetch.c). turns.c is for goals.sh. Each figure is the lowest of the rounds, and a round is kept only if the
# machine is quiet (../quiet.sh).
# Usage: bench/floor/run.sh
set -eu -o pipefail
here=$(cd "$(dirname "${BASH_SOURCE[0]}")" && pwd)
scratch=$(mktemp -d)
trap 'rm -rf "$scratch"' EXIT
. "$here/../quiet.sh"
for program in costs cache fetch; do
    cc -std=gnu11 -O3 -Wall -Wextra -Wpedantic "$here/$program.c" -lpthread -o "$scratch/$program"
done

# A table of what a program prints in the rounds: lines of picoseconds and what took them. Its heading, its unit's
# picoseconds, and the command.
table() {
    local heading=$1 unit=$2
    shift 2
    keep_rounds "$rounds" 1 "$@"
    echo "| $heading |"
    echo '|---|---|'
    awk -v unit="$unit" '
        {
            ps = $1
            sub(/^[^ ]+ /, "")
            if (!($0 in least) || ps < least[$0]) least[$0] = ps
            if (!($0 in seen)) { seen[$0]; names[++count] = $0 }
        }
        END {
            if (!count) print "| - | - |"
            for (i = 1; i <= count; i++) printf "| %.1f | %s |\n", least[names[i]] / unit, names[i]
        }' "$scratch/kept"
    echo
}

# Fetches of texts in each way.
fetches() {
    local size bytes calls mode
    while read -r size bytes calls; do
        for mode in hold stream copy; do
            echo "$("$scratch/fetch" "$mode" "$bytes" "$calls")000 $mode, ${size/_/ }"
        done
    done <<<$'10_KB 10000 5000\n64_KB 65536 800\n1_MB 1000000 50'
}

table 'ns | a part of a call' 1000 "$scratch/costs"
for rows in 1000 100000; do table "ns | a call in C, $rows rows" 1000 "$scratch/cache" "$rows"; done
# The large pages that the wrapper asks for.
export GLIBC_TUNABLES=glibc.malloc.hugetlb=1
table 'us | a fetch in C' 1000000 fetches
tell_of_quiet
