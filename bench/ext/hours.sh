#!/usr/bin/env bash
# SPDX-License-Identifier: MIT
# php-fpm with eight workers under load for MINUTES minutes, while one of them is killed each second: each reply is
# judged by a value that contains its key and its number (hours.php). A line a minute, and one of all. The status is 1
# if a reply was wrong, none came in ten seconds, or the server ended.
# Usage: bench/ext/hours.sh [MINUTES [SO]] (60); it needs php-fpm. SIZE in the environment is the cache's size (2M, into
# which all values fit; they do not fit into 1M), CLIENTS=N how many processes send requests (12), and PAUSE=N how many
# microseconds each waits between two requests (0).
set -eu
here=$(cd "$(dirname "${BASH_SOURCE[0]}")/../../php/ext/checks" && pwd)
minutes=${1:-60}
if [ $# -gt 0 ]; then shift; fi
. "$here/common.sh"
here=$(cd "$(dirname "${BASH_SOURCE[0]}")" && pwd)
. "$here/server.sh"
cp "$here/site/numbers.php" "$scratch/"
chmod a+r "$scratch/numbers.php"
socket="$scratch/hours.sock"
serve_fpm "$ours" "$socket" 8 -d apc.shm_size="${SIZE:-2M}"
status=0
# timeout's own group holds all clients, and they are gone at this script's end.
timeout "$(awk -v minutes="$minutes" 'BEGIN { printf "%d", minutes * 60 + 180 }')" \
    php "$here/hours.php" "$socket" "$scratch/numbers.php" "$master" "$minutes" "${CLIENTS:-12}" "${PAUSE:-0}" &
started+=("-$!")
trap 'exit 1' TERM INT
wait "$!" || status=1
if ! kill -0 "$master"; then
    echo 'the server has ended'
    status=1
fi
stop "$master"
# What the server logs besides the ends of its workers by the kills.
grep -vE 'signal 9|child [0-9]+ started|fpm is running|ready to handle|Terminating|bye-bye|systemd monitor|an empty one has' \
    "$socket.log" | head -n 20 || true
echo "status $status"
exit "$status"
