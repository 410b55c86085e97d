#!/usr/bin/env bash
# SPDX-License-Identifier: MIT
# Calls a second of 2, 4, 8 and 16 processes on one cache, and the longest call, compared with PHP's APCu, in turn in one
# run: fetches of three sizes, one counter, nine fetches and a store. A first ratio is ours / APCu's of the time
# between two calls, a second one of the longest. The rows of `nothing` are the machine's own: with more processes
# than processors each waits for one.
# Usage: bench/ext/processes.sh [SO]; it needs php-apcu and php with pcntl. MILLISECONDS=N in the environment is the
# duration of each work (1000), PROCESSES='N..' the numbers of processes; ROUNDS and NOISY are those of bench/quiet.sh.
set -eu -o pipefail
here=$(cd "$(dirname "${BASH_SOURCE[0]}")/../../php/ext/checks" && pwd)
. "$here/common.sh"
here=$(cd "$(dirname "${BASH_SOURCE[0]}")" && pwd)
. "$here/../quiet.sh"

# What both tell, ours first.
both() {
    local so
    for so in "$ours" "$base"; do
        php_with "$so" -d apc.shm_size=64M "$here/processes.php" "$1" "${MILLISECONDS:-1000}" times | tr '\n' ' '
    done
    echo
}

settings_of "$ours" >/dev/null
settings_of "$base" >/dev/null
php_with "$base" "$here/processes.php" 1 1 names >"$scratch/names"
echo '| ratio | ours, calls/s | APCu, calls/s | ratio | ours, longest, us | APCu, longest, us | processes | work |'
echo '|---|---|---|---|---|---|---|---|'
for processes in ${PROCESSES:-2 4 8 16}; do
    measured "$processes" both "$processes"
    tr ' ' '\n' <<<"$found" | awk -v processes="$processes" '
        function ratio(one, other) { return other + 0 > 0 ? sprintf("%.2f", one / other) : "-" }
        function rate(time) { return time + 0 > 0 ? sprintf("%.0f", 1e9 / time) : "-" }
        function micros(time) { return time + 0 > 0 ? sprintf("%.0f", time / 1000) : "-" }
        NR == FNR { found[NR] = $1; next }
        { name[++count] = $0 }
        END {
            for (i = 1; i <= count; i++) {
                ours = found[2 * i - 1]; longest = found[2 * i]
                apcu = found[2 * count + 2 * i - 1]; its_longest = found[2 * count + 2 * i]
                printf "| %s | %s | %s | %s | %s | %s | %d | %s |\n", ratio(ours, apcu), rate(ours), rate(apcu),
                    ratio(longest, its_longest), micros(longest), micros(its_longest), processes, name[i]
            }
        }' - "$scratch/names"
done
tell_of_quiet
