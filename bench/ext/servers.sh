#!/usr/bin/env bash
# SPDX-License-Identifier: MIT
# Several servers: two masters of php-fpm, each with a cache of its own, before one redis-server, by Symfony's
# ChainAdapter (site/products.php, which is all that a site needs). It shows which server's row each sees when rows
# are loaded, changed, deleted and expired; and times of a hit here, a hit there, and a miss that stores in both, compared
# with PHP's APCu in turn.
# Usage: bench/ext/servers.sh [SO]; it needs php-apcu, php-fpm, php-redis, redis-server and php-symfony-cache. ROUNDS
# and NOISY in the environment are those of bench/quiet.sh. The status is 1 if a server saw another row than it
# should.
set -eu -o pipefail
here=$(cd "$(dirname "${BASH_SOURCE[0]}")/../../php/ext/checks" && pwd)
. "$here/common.sh"
here=$(cd "$(dirname "${BASH_SOURCE[0]}")" && pwd)
. "$here/../quiet.sh"
. "$here/server.sh"
command -v redis-server >/dev/null || { echo 'no redis-server: apt-get install redis-server' >&2; exit 1; }
[ -f "$(php-config --extension-dir)/redis.so" ] || { echo 'no redis.so: apt-get install php-redis' >&2; exit 1; }
cp "$here"/site/{products,servers}.php "$scratch/"
chmod a+r "$scratch"/*.php

port=$(free_port)
redis-server --bind 127.0.0.1 --port "$port" --save '' --appendonly no --dir "$scratch" --daemonize no >"$scratch/redis.log" 2>&1 &
redis=$!
started+=("$redis")
soon php -n -r 'exit(@fsockopen("127.0.0.1", (int) $argv[1]) ? 0 : 1);' "$port" || { cat "$scratch/redis.log" >&2; exit 1; }

# Starts the two servers A and B over an extension; their numbers are in `servers`.
start() {
    local name
    servers=()
    for name in A B; do
        rm -f "$scratch/$name.sock"
        fpm_env="$(printf 'env[SERVER] = %s\nenv[REDIS] = redis://127.0.0.1:%s\nenv[HERE] = 2\n' "$name" "$port")"
        serve_fpm "$1" "$scratch/$name.sock" 1 $(php -m | grep -qx redis || echo '-d extension=redis') -d apc.shm_size=32M
        servers+=("$master")
    done
}

ask() {
    timeout 20 php -n -r 'require $argv[1]; echo ask($argv[2], $argv[3], $argv[4]) ?: "no answer\n";' \
        "$here/../../php/ext/checks/fcgi.php" "$scratch/$1.sock" "$scratch/servers.php" "$2"
}

# A request to a server has this answer: see SERVER QUERY ANSWER WHY
see() {
    local answer
    answer=$(ask "$1" "$2")
    if [ "$answer" = "$3" ]; then
        echo "$1 ?$2: $answer ($4)"
    else
        echo "$1 ?$2: $answer, and not $3 ($4)"
        failed=1
    fi
}

both() {
    local so
    for so in "$ours" "$base"; do
        start "$so"
        ask A times | grep -E '^[0-9. ]+$' | tr '\n' ' '
        stop "${servers[@]}"
    done
    echo
}

failed=0
start "$ours"
see A product=1 'A, now' 'nobody has it: A loads it, and stores it here and there'
see A product=1 'A' 'a hit here'
see B product=1 'A' 'a hit there, which B keeps here'
redis-cli -p "$port" flushall >/dev/null
see B product=1 'A' 'a hit here, though Redis is empty'
see A 'product=1&change' 'A, changed' 'A stores another, here and there'
see B product=1 'A' 'B has the old row, for as long as rows stay here'
sleep 3
see B product=1 'A, changed' 'that is over: B sees the change'
see B 'product=1&delete' 'B, now' 'B deletes it here and there, and loads it again'
stop "${servers[@]}"

echo '| ratio | ours, us | APCu, us | of |'
echo '|---|---|---|---|'
measured 2 both
awk '{
    split("a hit here|a hit there|a miss: stored in both", names, "|")
    for (i = 1; i <= 3; i++) {
        ratio = $(i + 3) + 0 > 0 ? sprintf("%.2f", $i / $(i + 3)) : "-"
        printf "| %s | %s | %s | %s |\n", ratio, $i, $(i + 3), names[i]
    }
}' <<<"$found"
tell_of_quiet
stop "$redis"
exit "$failed"
