#!/usr/bin/env bash
# SPDX-License-Identifier: MIT
# Nanoseconds a call of this repository's engine compared with APCu's engine at 1,000 and 100,000 rows: ours by the library
# for C, APCu's by its own C functions, both called in the same C loops in one process of PHP, so that no part of PHP's own
# loop is in any figure. Ours is called with a robust lock of all processes around each call (`locked`) and with none
# (`alone`); APCu's takes its own lock. Keys have 10 bytes, and their hash is computed in each call. Of ten rows four have
# a text of 8 bytes, a text of 100, and two integers, and six a boolean; 100 rows (1,000 of 100,000) hold 10 KB
# and eight hold 1 MB. A fetched text is copied into a new string of PHP's on both sides. Slots are the default 4,096; if
# there are more rows, about as many as rows: twice a prime, and APCu's own prime. Each figure is the lowest of all batches
# of at most 10,000 calls, less that of the loop. Then some calls that 1 to 8 processes make at once: nanoseconds by the
# clock for each call of all. Ratios come first: ours with the lock / APCu's, and ours alone / APCu's. A round is kept
# only if the machine is quiet (../quiet.sh).
# Usage: bench/engine/run.sh [ROWS..]; it needs php with apcu, and php-dev. CACHE_C_LIB=FILE in the environment is the
# library; by default ../../prove proves and builds it.
set -eu -o pipefail
here=$(cd "$(dirname "${BASH_SOURCE[0]}")" && pwd)
sizes=${*:-1000 100000}
scratch=$(mktemp -d)
trap 'rm -rf "$scratch"' EXIT
. "$here/../quiet.sh"
php_has apcu || { echo "$0: php with apcu is not there" >&2; exit 1; }
command -v php-config >/dev/null || { echo "$0: php-dev is not there" >&2; exit 1; }

library=${CACHE_C_LIB:-}
if [ -z "$library" ]; then
    "$here/../../prove" --library
    library=$here/../../crates/cache_c/out/libcache_c.a
fi
# PHP's headers and APCu's are where Debian's packages put them; warnings in them are not ours.
read -ra includes <<<"$(php-config --includes | sed 's/-I/-isystem /g')"
cc -std=gnu11 -O2 -fPIC -shared -Wall -Wextra "${includes[@]}" -isystem "$(php-config --include-dir)/ext/apcu" \
    "$here/engine.c" "$here/calls.c" "$here/../../capi/shared_cache.c" "$library" -lpthread -o "$scratch/engine.so"

# What a function of the module prints, at this many rows: lines of a side, picoseconds, and the call.
lines() {
    php -d apc.enabled=1 -d apc.enable_cli=1 -d apc.shm_size=128M -d apc.ttl=0 \
        -d apc.entries_hint=$(($2 > 4096 ? $2 : 4096)) -d extension="$scratch/engine.so" -r "$1;"
}

# The rows of a table of the rounds: ratios, the call, and nanoseconds of the sides.
table() {
    awk '
        {
            side = $1
            ps = $2
            sub(/^[^ ]+ [^ ]+ /, "")
            if (!(($0, side) in least) || ps < least[$0, side]) least[$0, side] = ps
            if (!($0 in seen)) { seen[$0]; names[++count] = $0 }
        }
        function ns(name, side) {
            if (!((name, side) in least)) return "-"
            return sprintf(least[name, side] < 1e6 ? "%.1f" : "%.0f", least[name, side] / 1000)
        }
        function ratio(name, side) {
            if (!((name, side) in least)) return "-"
            return sprintf("%.2f", least[name, side] / least[name, "apcu"])
        }
        END {
            if (!count) print "| - | - | - | - | - | - |"
            for (i = 1; i <= count; i++) {
                name = names[i]
                printf "| %s | %s | %s | %s | %s | %s |\n", ratio(name, "locked"), ratio(name, "plain"), name,
                    ns(name, "locked"), ns(name, "plain"), ns(name, "apcu")
            }
        }' "$scratch/kept"
    echo
}

heading() {
    echo "| locked / APCu | alone / APCu | $1 | locked, ns | alone, ns | APCu, ns |"
    echo '|---|---|---|---|---|---|'
}

for rows in $sizes; do
    keep_rounds "$rounds" 1 lines "engine_bench($rows)" "$rows"
    heading "$rows rows"
    table
done
for processes in 1 2 4 8; do
    keep_rounds "$rounds" "$processes" lines "engine_at_once(1000, $processes)" 1000
    heading "1000 rows, $processes at once"
    table
done
tell_of_quiet
