#!/usr/bin/env bash
# SPDX-License-Identifier: MIT
# Calls whose time depends on how many rows there are, ours and APCu's by the clock, in turn in each round: stores in a cache
# that is four fifths full, rows dropped by a clear and by their expiry, all or only some of them (with an apc.ttl, without
# which APCu drops all), information about all rows. Each figure is the least of the rounds; a ratio is ours / APCu's.
# Usage: bench/ext/many.sh [SO]; it needs php-apcu. ROUNDS and NOISY are those of bench/quiet.sh.
set -eu
here=$(cd "$(dirname "${BASH_SOURCE[0]}")/../../php/ext/checks" && pwd)
. "$here/common.sh"
here=$(cd "$(dirname "${BASH_SOURCE[0]}")" && pwd)
. "$here/../quiet.sh"

# One round: lines of a side, nanoseconds and a name.
both() {
    local so side work rows size ttl
    for work in 'churn 20000 32M 0' 'leave 100000 64M 0' 'stay 100000 64M 3600' 'info 10000 64M 0'; do
        read -r work rows size ttl <<<"$work"
        for side in ours apcu; do
            if [ "$side" = ours ]; then so=$ours; else so=$base; fi
            php_with "$so" -d apc.shm_size="$size" -d apc.entries_hint=65536 -d apc.ttl="$ttl" "$here/many.php" "$work" "$rows" |
                sed "s/^/$side /"
        done
    done
}

settings_of "$ours" >/dev/null
settings_of "$base" >/dev/null
keep_rounds "$rounds" 1 both
echo '| ratio | ours, us | APCu, us | |'
echo '|---|---|---|---|'
awk '
    {
        side = $1; ns = $2
        sub(/^[^ ]+ [^ ]+ /, "")
        if (!((side, $0) in least) || ns < least[side, $0]) least[side, $0] = ns
        if (!($0 in seen)) { seen[$0]; names[++count] = $0 }
    }
    END {
        for (i = 1; i <= count; i++) {
            ours = least["ours", names[i]]; apcu = least["apcu", names[i]]
            printf "| %.2f | %.1f | %.1f | %s |\n", ours / apcu, ours / 1000, apcu / 1000, names[i]
        }
    }' "$scratch/kept"
tell_of_quiet
