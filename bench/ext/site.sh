#!/usr/bin/env bash
# SPDX-License-Identifier: MIT
# A site behind nginx and php-fpm with eight workers, under the load of wrk, over ours and over PHP's APCu in turn:
# the shop of ../record/site and a page of Symfony's cache (site/symfony.php), each with an ample cache and with one
# that has room for a part of the pages. A ratio is ours / APCu's of the time between two requests. How often memory
# was short is printed after the table. Each load runs for a tenth of its time before it is measured.
# Usage: bench/ext/site.sh [SO [SECONDS]]; it needs php-apcu, php-fpm, nginx, wrk and php-symfony-cache. AMPLE and
# SMALL in the environment are the sizes (64M, 8M), CONNECTIONS=N the number of concurrent requests (16); ROUNDS
# and NOISY are those of bench/quiet.sh.
set -eu -o pipefail
here=$(cd "$(dirname "${BASH_SOURCE[0]}")/../../php/ext/checks" && pwd)
. "$here/common.sh"
here=$(cd "$(dirname "${BASH_SOURCE[0]}")" && pwd)
. "$here/../quiet.sh"
. "$here/server.sh"
seconds=${2:-60}
command -v wrk >/dev/null || { echo 'no wrk: apt-get install wrk' >&2; exit 1; }
mkdir "$scratch/site"
cp "$here/../record/site/index.php" "$here"/site/*.php "$scratch/site/"
chmod -R a+rX "$scratch/site"
: >"$scratch/short"

get() { php -n -r 'echo file_get_contents("http://127.0.0.1:$argv[1]$argv[2]") ?: "none\n";' "$port" "$1"; }

load() {
    PAGE=$1 timeout $(($2 + 30)) wrk -t2 -c"${CONNECTIONS:-16}" -d"${2}s" --timeout 10s -s "$here/site/visits.lua" \
        "http://127.0.0.1:$port" >"$scratch/wrk"
}

# Of a page over an extension: nanoseconds between two requests, median and 99th hundredth in microseconds, misses in a
# hundred; one NAME SO PAGE SIZE
one() {
    local name=$1 socket="$scratch/$1.sock" told
    serve_fpm "$2" "$socket" 8 -d "apc.shm_size=$4"
    serve_nginx "$socket" "$scratch/site"
    load "$3" $(((seconds + 9) / 10))
    get '/hits.php?clear' >/dev/null
    load "$3" "$seconds"
    told=$(get /hits.php)
    stop "$front" "$master"
    rm -f "$socket"
    # What the load's line has: its name, requests a second, median, 99th hundredth, faults.
    set -- "$@" $(grep '^told' "$scratch/wrk") $told
    if [ "$9" != 0 ]; then
        cat "$scratch/wrk" "$socket.log" >&2
        return 1
    fi
    echo "$name, $3, $4: memory was short ${11} times, ${12} rows at the end" >>"$scratch/short"
    awk -v rate="$6" 'BEGIN { printf "%.0f ", 1e9 / rate }'
    echo -n "$7 $8 ${10} "
}

both() {
    one ours "$ours" "$@"
    one APCu "$base" "$@"
    echo
}

echo '| ratio | ours, requests/s | APCu, requests/s | ours, p50, us | APCu, p50, us | ours, p99, us | APCu, p99, us |' \
    'ours, misses, % | APCu, misses, % | size | page |'
echo '|---|---|---|---|---|---|---|---|---|---|---|'
for page in index.php symfony.php; do
    for size in "${AMPLE:-64M}" "${SMALL:-8M}"; do
        measured 4 both "/$page" "$size"
        awk -v size="$size" -v page="$page" '{
            ratio = $5 + 0 > 0 ? sprintf("%.2f", $1 / $5) : "-"
            ours = $1 + 0 > 0 ? sprintf("%.0f", 1e9 / $1) : "-"
            apcu = $5 + 0 > 0 ? sprintf("%.0f", 1e9 / $5) : "-"
            printf "| %s | %s | %s | %s | %s | %s | %s | %s | %s | %s | %s |\n",
                ratio, ours, apcu, $2, $6, $3, $7, $4, $8, size, page
        }' <<<"$found"
    done
done
tell_of_quiet
cat "$scratch/short"
