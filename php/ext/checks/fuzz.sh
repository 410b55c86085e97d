#!/usr/bin/env bash
# SPDX-License-Identifier: MIT
# A million random calls of one process, and a million of four that take turns, have the same replies from an extension as
# from PHP's APCu: what a call returns or throws, its warnings and the hooks of objects it runs. Of the first, half are of
# one moment, under each serializer, and during the other half time moves, with apc.ttl and without. Time is a file
# (clock.c), so that both have the same moments. fuzz.php says what is left out.
# Usage: php/ext/checks/fuzz.sh [SO]; it needs php-apcu, cc, and php-igbinary for one of the serializers. ROUNDS=N in
# the environment plays N times 100,000 calls of each (10), and FIRST=N begins at another seed.
set -eu
here=$(cd "$(dirname "${BASH_SOURCE[0]}")" && pwd)
. "$here/common.sh"
cc -O2 -shared -fPIC -o "$scratch/clock.so" "$here/clock.c"
rounds=${ROUNDS:-10}
first=${FIRST:-1}
count=10000
settings_of "$base" >/dev/null
settings_of "$ours" >/dev/null

# What a seed gives: play SO HOW SEED [SETTING..]
play() {
    local so=$1 how=$2 seed=$3 clock
    shift 3
    clock=$(mktemp "$scratch/clock.XXXXXX")
    php -n -r 'file_put_contents($argv[1], pack("P", 1700000000));' "$clock"
    (
        export LD_PRELOAD="$scratch/clock.so" CLOCK_FILE="$clock" PHP_INI_SCAN_DIR
        PHP_INI_SCAN_DIR=$(settings_of "$so")
        # A call that never ends is stopped.
        exec timeout -k 5 300 php -d apc.enable_cli=1 -d apc.use_request_time=0 -d apc.shm_size=64M -d apc.ttl=0 "$@" \
            "$here/fuzz.php" "$how" "$seed" "$count"
    ) 2>&1 || echo "status $?"
    rm -f "$clock"
}

# Plays a seed over both, and prints the first answer that differs.
compare() {
    local how=$1 seed=$2 of="$scratch/$1.$2"
    play "$base" "$@" >"$of.base" &
    play "$ours" "$@" >"$of.ours"
    wait $!
    if cmp -s "$of.base" "$of.ours" && ! grep -q '^status' "$of.base"; then
        rm "$of".*
        return 0
    fi
    TRACE=1 play "$base" "$@" >"$of.base" &
    TRACE=1 play "$ours" "$@" >"$of.ours"
    wait $!
    echo "$*: another answer" >&2
    diff --text "$of.base" "$of.ours" | head -n 4 | cut -c 1-400 >&2 || true
    return 1
}

differ=0
one=0
four=0
serializers=(php default)
if php -m | grep -qx igbinary; then serializers+=(igbinary); fi
for ((seed = first; seed < first + 10 * rounds; seed++)); do
    if [ $((seed % 2)) = 0 ]; then
        compare moment "$seed" -d apc.serializer="${serializers[seed / 2 % ${#serializers[@]}]}" || differ=$((differ + 1))
    else
        compare times "$seed" -d apc.ttl=$((seed / 2 % 4)) || differ=$((differ + 1))
    fi
    one=$((one + count))
    compare four "$seed" || differ=$((differ + 1))
    four=$((four + count))
done
echo "$one calls of one process, $four of four that take turns; serializers: ${serializers[*]}"
echo "$differ of $((20 * rounds)) seeds have another answer than APCu's"
[ "$differ" = 0 ]
