#!/usr/bin/env bash
# SPDX-License-Identifier: MIT
# What the extension records is judged by php/judge.php: each reply is right, of the suites for PSR-6 and PSR-16, of the
# shop of bench/record, of a minute of wrk on php-fpm with eight workers, of random calls of some processes, and of
# processes of which 40 are killed, where no event is missing but of calls that had not returned. Each of ten replies that are
# changed is found, as are two events whose places are changed, and a call that is left out; a build of the extension that
# does not count now and then is caught, and one that gives rows that have expired. A damaged record is reported. Then a record of
# ten million events, and what recording costs.
# Usage: php/ext/checks/record.sh [SO [REPLAY [CHECK..]]]; REPLAY is the program apcu_replay, which capi/ builds. It needs
# what suites.sh needs, php-fpm, nginx and wrk for the minute, and php-dev for the builds that are wrong. CHECK is calls,
# proved, kills, suites, shop, load, builds, many or costs; all without one. In the environment VISITS is how many visits each
# of four clients makes (1500), SECONDS_OF_LOAD how long wrk runs (60), EVENTS how many events `many` records (10000000), and
# PROGRAM the program apcu_run that `proved` asks; by default it is the one that ./prove built, and without one it is skipped.
set -eu
here=$(cd "$(dirname "$0")" && pwd)
. "$here/common.sh"
top=$(cd "$here/../../.." && pwd)
replay=$(realpath -- "${2:-$top/capi/apcu_replay}")
events=${EVENTS:-10000000}
visits=${VISITS:-1500}
minute=${SECONDS_OF_LOAD:-60}
status=0

# Words for php/judge.php.
options=()

# Judges a folder: judge FOLDER STATUS WORDS..; what it prints has to have these words.
judge() {
    local folder=$1 wanted=$2 got=0 word
    shift 2
    php "$top/php/judge.php" --replay "$replay" "${options[@]}" "$folder" >"$scratch/verdict" 2>&1 || got=$?
    sed 's/^/    /' "$scratch/verdict"
    if [ "$got" != "$wanted" ]; then
        echo "the status is $got and not $wanted: $folder" >&2
        status=1
    fi
    for word in "$@"; do
        grep -qF -- "$word" "$scratch/verdict" || { echo "not printed: $word" >&2; status=1; }
    done
}

suite() {
    local name=$1 folder="$scratch/suite.$1"
    timeout 300 env PHP_INI_SCAN_DIR="$(settings_of "$ours")" php -d apc.enable_cli=1 -d apc.ttl=0 \
        -d apc.record_dir="$folder" -d zend.assertions=1 /usr/bin/phpunit --no-configuration --do-not-cache-result \
        --bootstrap "$top/checks/record/suites/load.php" "$top/checks/record/suites/${name}Test.php" >"$folder.out" 2>&1 || true
}

check_suites() {
    local name runs=()
    [ -x /usr/bin/phpunit ] || { echo 'no phpunit: no suites'; return; }
    settings_of "$ours" >/dev/null
    for name in Pool Simple Namespaced TagAware; do
        suite "$name" &
        runs+=($!)
    done
    for name in "${runs[@]}"; do wait "$name"; done
    for name in Pool Simple Namespaced TagAware; do
        echo "suite $name"
        judge "$scratch/suite.$name" 0 'each reply is right'
    done
}

check_shop() {
    local server seed clients=() address=127.0.0.1:8124
    set -m
    PHP_CLI_SERVER_WORKERS=4 php_with "$ours" -d apc.shm_size=8M -d apc.record_dir="$scratch/shop" -S "$address" \
        -t "$top/bench/record/site" >/dev/null 2>&1 &
    server=$!
    set +m
    started+=("-$server")
    sleep 2
    for seed in 1 2 3 4; do
        php "$top/bench/record/visits.php" "http://$address" "$visits" "$seed" &
        clients+=($!)
    done
    for seed in "${clients[@]}"; do wait "$seed"; done
    kill -- "-$server"
    wait "$server" 2>/dev/null || true
    echo "the shop, $((4 * visits)) visits"
    judge "$scratch/shop" 0 'each reply is right'
}

check_load() {
    local socket="$scratch/load.sock"
    command -v wrk >/dev/null || { echo 'no wrk: no minute of it'; return; }
    . "$top/bench/ext/server.sh"
    mkdir "$scratch/site"
    chmod 711 "$scratch"
    cp "$top/bench/record/site/index.php" "$scratch/site/"
    serve_fpm "$ours" "$socket" 8 -d apc.shm_size=8M -d apc.record_dir="$scratch/load" -d apc.record_size=4G
    serve_nginx "$socket" "$scratch/site"
    echo "the shop on php-fpm with eight workers, $minute seconds of wrk"
    timeout $((minute + 30)) wrk -t2 -c16 -d"${minute}s" --timeout 10s -s "$top/bench/ext/site/visits.lua" \
        "http://127.0.0.1:$port" | sed -n -E 's/^ *([0-9]+ requests .*)/    \1/p; s/^told/    &/p'
    stop "$front" "$master"
    judge "$scratch/load" 0 'each reply is right'
}

# Random calls by an extension: work FOLDER SO SETTING..
calls=5000
work() {
    local folder=$1 so=$2
    shift 2
    php_with "$so" -d apc.shm_size=4M -d apc.record_dir="$folder" "$@" "$here/record-work.php" 6 "$calls" 1
}

# Judges a record that is changed: changed STATUS WORDS KIND [N]; AT in the words is the event.
record=work
changed() {
    local wanted=$1 words=$2 at
    rm -rf "$scratch/changed"
    cp -r "$scratch/$record" "$scratch/changed"
    at=$(php -n "$here/record-change.php" "$3" "$scratch/changed" "${@:4}")
    echo "changed ($3) at event $at"
    judge "$scratch/changed" "$wanted" "${words//AT/$at}"
}

check_changes() {
    local tenth
    for tenth in 0 1 2 3 4 5 6 7 8 9; do changed 9 'event AT,' reply "$tenth"; done
    changed 9 'event AT,' swap
    changed 9 'event AT,' left
    changed 2 'is no event of the next number' gone
}

# The events of each process are those of its calls that returned, and at most one more.
check_kills() {
    php_with "$ours" -d apc.shm_size=8M -d apc.record_dir="$scratch/kills" -d apc.record_size=2G -d error_log=/dev/null \
        "$here/record-kills.php" 40 >"$scratch/answered"
    echo "processes that are killed: $(wc -l <"$scratch/answered")"
    judge "$scratch/kills" 0 'each reply is right'
    "$replay" --print "$scratch"/kills/*.record |
        LC_ALL=C awk '/^process / { process = $2 } /^[0-9]+ apcu_/ { count[process]++ } END { for (p in count) print p, count[p] }' |
        sort >"$scratch/recorded"
    sort "$scratch/answered" | join -a 1 -e 0 -o 0,1.2,2.2 - "$scratch/recorded" | awk '
        $3 < $2 || $3 > $2 + 1 { print "process " $1 ": " $2 " calls returned, " $3 " events"; wrong = 1 }
        { calls += $2; events += $3 }
        END { printf "    %d calls returned, %d events\n", calls, events; exit wrong }' || status=1
}

# Builds the extension with one text of a file changed, and judges what it records: wrong NAME FILE OLD NEW
wrong() {
    local name=$1 folder="$scratch/build.$1"
    "$here/../stage.sh" "$folder"
    php -r '[, $file, $old, $new] = $argv; $text = file_get_contents($file);
        if (substr_count($text, $old) !== 1) { fwrite(STDERR, "$file does not have this text once: $old\n"); exit(1); }
        file_put_contents($file, str_replace($old, $new, $text));' "$folder/$2" "$3" "$4"
    (cd "$folder" && phpize && ./configure && make) >"$folder/log" 2>&1 || { tail "$folder/log" >&2; exit 1; }
    echo "a build that is wrong: $name"
    work "$scratch/wrong.$name" "$folder/modules/apcu.so"
    judge "$scratch/wrong.$name" 9 'not the due reply'
}

# The first byte behind the head may be any, white space too.
check_seconds() {
    local byte
    php_with "$ours" -d apc.record_dir="$scratch/seconds" "$top/bench/record/cost.php" 5
    for byte in 0 9 10 11 12 13 32 255; do
        php -n "$here/record-change.php" second "$scratch/seconds" "$byte"
        echo "a record whose first event begins with the byte $byte"
        judge "$scratch/seconds" 0 '10 events of 1 process in 1 second: each reply is right'
    done
}

check_folders() {
    local file
    echo 'an empty folder'
    mkdir "$scratch/empty"
    judge "$scratch/empty" 1 'no record of the extension'
    echo 'records of two servers'
    cp -r "$scratch/work" "$scratch/two"
    cp "$scratch/without"/* "$scratch/two/"
    judge "$scratch/two" 0 'records of 2 servers'
    echo 'a record that ends within an event'
    cp -r "$scratch/work" "$scratch/cut"
    file=$(ls -S "$scratch/cut"/* | head -n 1)
    truncate -s $(($(stat -c %s "$file") - 3)) "$file"
    judge "$scratch/cut" 2 'ends within an event' 'each judged reply is right'
}

# Milliseconds of processor time and of the clock of stores and fetches: spent COUNT PROCESSES SETTING..
spent() {
    local TIMEFORMAT='%U %S %R' count=$1 processes=$2
    shift 2
    rm -rf "$scratch/cost"
    { time php_with "$ours" -d apc.shm_size=128M -d error_log=/dev/null "$@" "$top/bench/record/cost.php" \
        "$count" "$processes" >/dev/null; } 2>&1 | awk '{ printf "%.0f %.0f ", ($1 + $2) * 1000, $3 * 1000 }'
}

# By one process, and by eight that share four times the calls: in turn without a call, without a record, with one, and with
# one without values; the least of nine. The time of a program without a call is taken off before two are compared.
check_costs() {
    local run processes count
    for processes in 1 8; do
        count=$((processes == 1 ? 100000 : 400000))
        for run in 1 2 3 4 5 6 7 8 9; do
            spent 0 "$processes"
            spent "$count" "$processes"
            spent "$count" "$processes" -d apc.record_dir="$scratch/cost"
            spent "$count" "$processes" -d apc.record_dir="$scratch/cost" -d apc.record_values=0
            echo
        done | awk -v calls="$((2 * count))" -v processes="$processes" '
            { for (i = 1; i <= NF; i++) if (NR == 1 || $i < least[i]) least[i] = $i }
            function told(name, i,    none, all, lengths) {
                none = least[i + 2] - least[i]
                all = least[i + 4] - least[i]
                lengths = least[i + 6] - least[i]
                printf "    %s: %d ms; recorded %d ms (%.2f), without values %d ms (%.2f)\n", name, none, all, all / none,
                    lengths, lengths / none
                return all / none
            }
            END {
                printf "%d stores and fetches of 100 bytes, processes: %d\n", calls, processes
                most = told("processor", 1)
                told("clock", 2)
                exit !(most <= 1.25)
            }' || { echo 'recording costs more than a quarter' >&2; status=1; }
    done
    rm -rf "$scratch/cost"
}

check_calls() {
    echo 'random calls'
    work "$scratch/work" "$ours"
    judge "$scratch/work" 0 'each reply is right'
    echo 'the same, without values'
    work "$scratch/without" "$ours" -d apc.record_values=0
    judge "$scratch/without" 0 'each reply is right; values were left out'
    check_changes
    check_seconds
    check_folders
}

# The program that is proved from the text to the verdict says the same.
check_proved() {
    local program=${PROGRAM:-$top/crates/apcu_run/out/apcu_run} calls=200 record=few options=()
    [ -x "$program" ] || { echo 'no program apcu_run: no verdict by it'; return; }
    options=(--proved --program "$program")
    echo 'random calls, by apcu_run'
    work "$scratch/few" "$ours"
    judge "$scratch/few" 0 'each reply is right, by apcu_run'
    echo 'the same, without values'
    work "$scratch/lengths" "$ours" -d apc.record_values=0
    judge "$scratch/lengths" 0 'each reply is right, by apcu_run; values were left out'
    changed 9 'event AT,' reply
    changed 9 'event AT,' swap
}

# Memory is that of the cache, whatever the record's length.
check_many() {
    php_with "$ours" -d apc.shm_size=64M -d apc.record_dir="$scratch/many" -d apc.record_size=8G "$here/record-many.php" "$events"
    ls -lh "$scratch"/many/*.record | awk '{ print "    a record of " $5 }'
    judge "$scratch/many" 0 'each reply is right'
    rm -r "$scratch/many"
}

check_builds() {
    wrong uncounted capi/shared_cache.c '    if (is_noted)' '    static unsigned calls;
    if (request->kind == CACHE_COUNT && answer.kind == CACHE_INT && ++calls % 50 == 0) {
        cache_request back = *request;
        back.number = 0 - back.number;
        cache_ask(shared_at->cache, &back, key, key_len, bytes, len);
    }
    if (is_noted)'
    wrong outlived capi/shared_cache.c '    cache_answer answer =
        cache_ask_unchecked(shared_at->cache, request,' '    cache_request late = *request;
    late.t -= late.kind == CACHE_LOOK;
    cache_answer answer =
        cache_ask_unchecked(shared_at->cache, &late,'
}

[ $# -gt 2 ] && shift 2 || set -- calls proved kills suites shop load builds many costs
for name in "$@"; do "check_$name"; done
exit "$status"
