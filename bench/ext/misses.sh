#!/usr/bin/env bash
# SPDX-License-Identifier: MIT
# Instructions and misses of the processor's caches in calls of PHP, ours and APCu's, counted by callgrind inside the call's
# own C function alone: a first data cache of 32 KB and a last one of 1 MB, with lines of 64 bytes and no prefetcher.
# The figures are per call and are the same on each run, whatever else the machine does. Keys have 10 bytes, and are called
# in another order than the one in which they were stored; slots are the default, and as many as rows. A ratio is ours / APCu's.
# Usage: bench/ext/misses.sh [SO]; it needs php-apcu and valgrind. SIZES='ROWS/HINT..' in the environment are other rows, with
# this apc.entries_hint, and CALLS=N the number of calls of each kind (20000).
set -eu -o pipefail
here=$(cd "$(dirname "${BASH_SOURCE[0]}")/../../php/ext/checks" && pwd)
. "$here/common.sh"
here=$(cd "$(dirname "${BASH_SOURCE[0]}")" && pwd)
command -v valgrind >/dev/null || { echo 'no valgrind: apt-get install valgrind' >&2; exit 1; }
calls=${CALLS:-20000}

# A line for each call: its name, a side, and per call instructions and misses of the first and of the last cache;
# count SIDE SO VALUE ROWS HINT
count() {
    local side=$1 so=$2 value=$3 out="$scratch/profile" names part=1
    rm -f "$out"*
    # Collecting is off but in these functions. Rows are added by one that is not among them.
    valgrind --tool=callgrind --cache-sim=yes --I1=32768,8,64 --D1=32768,8,64 --LL=1048576,16,64 \
        --callgrind-out-file="$out" --dump-before=zif_apcu_enabled --toggle-collect=zif_apcu_fetch \
        --toggle-collect=zif_apcu_key_info --toggle-collect=zif_apcu_store --toggle-collect=zif_apcu_delete \
        php -n -d extension="$so" -d apc.enable_cli=1 -d apc.use_request_time=0 -d apc.shm_size=256M -d memory_limit=-1 \
        -d apc.entries_hint="$5" "$here/misses.php" "$value" "$4" "$calls" >"$scratch/log" 2>&1 ||
        { cat "$scratch/log" >&2; return 1; }
    case $value in
        integer) names='fetch, an integer|key_info|store over, an integer|delete and store' ;;
        text) names='store over, 100 bytes' ;;
    esac
    # The first part is that before the first kind of call.
    while IFS= read -r name; do
        part=$((part + 1))
        awk -v side="$side" -v calls="$calls" -v name="$name" '
            $1 == "events:" { for (i = 2; i <= NF; i++) place[$i] = i }
            $1 == "summary:" || $1 == "totals:" { for (event in place) sum[event] = $(place[event]) }
            END {
                if (sum["Ir"] == 0) exit 1
                printf "%s|%s|%.0f %.2f %.2f\n", name, side, sum["Ir"] / calls, (sum["D1mr"] + sum["D1mw"]) / calls,
                    (sum["DLmr"] + sum["DLmw"]) / calls
            }' "$out.$part" || { echo "$0: no function $name of $so" >&2; return 1; }
    done < <(tr '|' '\n' <<<"$names")
}

echo '| rows | slots asked for | call | instructions | ratio | first cache | ratio | last cache | ratio |'
echo '|---|---|---|---|---|---|---|---|---|'
for size in ${SIZES:-1000/4096 10000/4096 10000/10000 100000/4096 100000/100000}; do
    rows=${size%/*} slots=${size#*/}
    for value in integer text; do
        count ours "$ours" "$value" "$rows" "$slots"
        count apcu "$base" "$value" "$rows" "$slots"
    done >"$scratch/counts"
    awk -F '|' -v rows="$rows" -v slots="$slots" '
        function both(one, other) { return sprintf("%s / %s | %s", one, other, other + 0 > 0 ? sprintf("%.2f", one / other) : "-") }
        $2 == "ours" { split($3, ours); count[++last] = $1; figures[$1] = $3 }
        $2 == "apcu" { apcu[$1] = $3 }
        END {
            for (i = 1; i <= last; i++) {
                split(figures[count[i]], ours, " ")
                split(apcu[count[i]], its, " ")
                printf "| %d | %d | %s | %s | %s | %s |\n", rows, slots, count[i], both(ours[1], its[1]), both(ours[2], its[2]),
                    both(ours[3], its[3])
            }
        }' "$scratch/counts"
done
