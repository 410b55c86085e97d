#!/usr/bin/env bash
# SPDX-License-Identifier: MIT
# Debian's suites for PSR-6 and PSR-16 over Symfony's cache on PHP's APCu, with and without php/record.php: the results
# are the same. Errors of the recorder, join.php, report.php and map.php in reading or writing are one line. If a program
# is given, it plays what was recorded, random calls too, and each reply is compared with APCu's; and a report is made of
# it. Then the cost of recording is measured.
# Usage: checks/record/run.sh [PROGRAM]; it needs php-apcu, php-uopz, phpunit, php-symfony-cache, php-psr-simple-cache
# and php-cache-integration-tests. KEEP=FOLDER in the environment keeps what was recorded.
set -eu
here=$(cd "$(dirname "${BASH_SOURCE[0]}")" && pwd)
program=${1:-}
work=${KEEP:-$(mktemp -d)}
mkdir -p "$work"
[ -n "${KEEP:-}" ] || trap 'rm -rf "$work"' EXIT
# Stores and fetches this many values.
stored="$here/../../bench/record/cost.php"
suites=(Pool Simple Namespaced TagAware)
plain=(php -d apc.enable_cli=1 -d apc.ttl=0 -d apc.use_request_time=0 -d zend.assertions=1)
loaded=("${plain[@]}" -d extension=uopz -d uopz.exit=1)
recorded=("${loaded[@]}" -d auto_prepend_file="$here/../../php/record.php")

# A suite's results, test by test: `plain`, `recorded`, or `replies` with APCu's replies next to the script.
suite() {
    local name=$1 how=$2 of="$work/$1.$2"
    local php=("${plain[@]}")
    [ "$how" = plain ] || php=(env APCU_RECORD_DIR="$of" "${recorded[@]}")
    [ "$how" != replies ] || php=(env APCU_RECORD_REPLIES=1 "${php[@]}")
    # A suite may fail; then it has to fail alike.
    "${php[@]}" /usr/bin/phpunit --no-configuration --do-not-cache-result --bootstrap "$here/suites/load.php" \
        --log-junit "$of.xml" "$here/suites/${name}Test.php" >"$of.out" 2>&1 || true
    sed -E -e 's/ time="[^"]*"//g' "$of.xml" >"$of.results"
}

check_suites() {
    local name how runs=()
    # Most of this is waiting.
    for name in "${suites[@]}"; do
        for how in plain recorded replies; do
            suite "$name" "$how" &
            runs+=($!)
        done
    done
    for run in "${runs[@]}"; do wait "$run"; done
    for name in "${suites[@]}"; do
        for how in recorded replies; do
            cmp "$work/$name.plain.results" "$work/$name.$how.results" || {
                echo "$name: another result with the recorder ($how)" >&2
                return 1
            }
        done
        echo "$name: $(tail -n 1 "$work/$name.plain.out"); the same with the recorder"
        printf '  recorded %s lines\n' "$(cat "$work/$name.recorded"/*.apcu | wc -l)"
    done
}

# Odd calls are answered alike.
check_answers() {
    local of="$work/answers"
    "${plain[@]}" "$here/answers.php" >"$of.plain" || true
    APCU_RECORD_DIR="$of" "${recorded[@]}" "$here/answers.php" >"$of.recorded" || true
    cmp "$of.plain" "$of.recorded" || { echo "another answer with the recorder" >&2; return 1; }
    echo "answers: $(grep -c '^[0-9]' "$of.plain") calls, the same with the recorder"
}

# A program continues if the recorder can't, and one line says why.
fault() {
    local what=$1 words=$2 of="$work/fault"
    shift 2
    "$@" "$stored" 3000 >"$of.out" 2>"$of.err" || { echo "$what: the site did not go on" >&2; return 1; }
    if [ "$(wc -l <"$of.err")" != 1 ] || ! grep -q "^apcu record: .*$words" "$of.err" || [ -s "$of.out" ]; then
        echo "$what: another message" >&2
        return 1
    fi
    echo "$what: $(cat "$of.err")"
}

check_faults() {
    local prepended=(-d auto_prepend_file="$here/../../php/record.php")
    : >"$work/file"
    fault 'no folder' 'Failed to open stream' env APCU_RECORD_DIR="$work/file/none" "${recorded[@]}"
    fault 'no uopz' 'uopz is not loaded' "${plain[@]}" "${prepended[@]}"
    fault 'APCu is off' 'APCu is off' php -d extension=uopz -d apc.enable_cli=0 "${prepended[@]}"
    # If files may have only this many bytes, a write ends as on a full disk.
    (trap '' XFSZ && ulimit -f 100 && fault 'full disk' 'Write of' env APCU_RECORD_DIR="$work/full" "${recorded[@]}")
    php "$here/../../php/join.php" "$work/full" >/dev/null 2>&1 || { echo 'full disk: no script' >&2; return 1; }
}

# A program ends with one line that has these words, and prints nothing else on the file.
message() {
    local words=$1 file=$2 of="$work/message"
    shift 2
    if php "$@" >"$file" 2>"$of" || [ "$(wc -l <"$of")" != 1 ] || ! grep -q "$words" "$of" || [ -s "$file" ]; then
        echo "$1, '$words': another message: $(cat "$of")" >&2
        return 1
    fi
    cat "$of"
}

check_messages() {
    local folder="$here/../../php" out="$work/nothing" script
    script=$work/script
    printf 'worker\nrequest i:0;\napcu_enabled\n' >"$script"
    message 'No such file' "$out" "$folder/join.php" "$work/none"
    mkdir -p "$work/empty"
    message 'none of these files' "$out" "$folder/join.php" "$work/empty"
    message 'no record with' "$out" "$folder/report.php" --program "$folder/../apcu_run" "$work/empty"
    message 'No space left' /dev/full "$folder/join.php" "$script"
    message 'No such file' "$out" "$folder/map.php" "$work/none"
    message 'has no map' "$out" "$folder/map.php" "$script"
    message 'No such file' "$out" "$folder/report.php" --program "$folder/../apcu_run" "$work/none"
    message 'is a folder' "$out" "$folder/report.php" --program "$folder/../apcu_run" --html "$work" "$script"
    message 'is not an executable' "$out" "$folder/report.php" --program "$work/none" "$script"
    message 'no place' "$out" -d sys_temp_dir="$work/none" "$folder/report.php" --program "$folder/../apcu_run" "$script"
}

# The script of one process is taken by the program, and its replies are APCu's.
check_script() {
    local name=$1 of
    of=$(ls "$work/$name.replies"/*.apcu)
    of=${of%.apcu}
    "$program" --shm-size 64M <"$of.apcu" >"$of.output" || { echo "$name: $of.apcu is not played" >&2; return 1; }
    printf '%s: ' "$name"
    php "$here/compare.php" "$of.apcu" "$of.replies" "$of.output"
}

# Random calls, of a moment or over some seconds, as checks/calls makes them.
random_calls() {
    APCU_RECORD_DIR="$work/$1.$2.replies" APCU_RECORD_REPLIES=1 "${recorded[@]}" -d apc.shm_size=64M \
        "$here/../calls/fuzz.php" "$1" "$2" "$3" printed >/dev/null
}

check_replies() {
    local name failed=0
    random_calls seconds 1 400 &
    for name in 1 2 3; do random_calls moment "$name" 2000; done
    wait $!
    for name in "${suites[@]}" seconds.1 moment.{1,2,3}; do check_script "$name" || failed=1; done
    # Each script of the odd calls is taken, too.
    php "$here/../../php/join.php" "$work/answers"/* 2>/dev/null | "$program" --shm-size 64M >/dev/null || failed=1
    return "$failed"
}

# A report has a line for each setting, the site's own one first, followed by APCu's counters, what was left out in the
# last one; and the page has a picture of each cache.
check_report() {
    local page="$work/page.html"
    php "$here/../../php/report.php" --program "$program" --html "$page" --try '--shm-size 1M' \
        --try '--shm-size 1M --segments 2 --ttl 60' "$work/Simple.recorded" >"$work/table"
    cat "$work/table"
    if [ "$(grep -c ' MB$' "$work/table")" != 3 ] || [ "$(grep -c '<svg' "$page")" != 3 ] ||
        ! sed -n 2p "$work/table" | grep -q '^--shm-size 32M  ' || ! sed -n 3p "$work/table" | grep -q '^APCu itself .* MB' ||
        ! tail -n 1 "$work/table" | grep -q 'left out.*a string as long stands for' || ! grep -q '<p>.*left out' "$page"; then
        echo 'report: another table or page' >&2
        return 1
    fi
}

# Milliseconds of processor time of a whole program.
spent() {
    local TIMEFORMAT='%U %S' times
    times=$({ time "$@" >/dev/null; } 2>&1)
    awk '{ printf "%.0f\n", ($1 + $2) * 1000 }' <<<"$times"
}

median() {
    sort -n | awk '{ all[NR] = $1 } END { print all[int((NR + 1) / 2)] }'
}

# 100,000 stores and as many fetches.
cost() {
    local run
    for run in 1 2 3 4 5; do
        spent "${plain[@]}" -d apc.shm_size=128M "$stored" 100000 >>"$work/cost.plain"
        spent "${loaded[@]}" -d apc.shm_size=128M "$stored" 100000 >>"$work/cost.loaded"
        rm -rf "$work/cost"
        APCU_RECORD_DIR="$work/cost" spent "${recorded[@]}" -d apc.shm_size=128M "$stored" 100000 \
            >>"$work/cost.recorded"
    done
    echo "100,000 stores and fetches, processor time of the whole program, median of 5 runs:"
    for run in plain loaded recorded; do
        echo "  $run: $(median <"$work/cost.$run") ms ($(tr '\n' ' ' <"$work/cost.$run"))"
    done
}

status=0
check_suites || status=1
check_answers || status=1
check_faults || status=1
check_messages || status=1
if [ -n "$program" ]; then
    check_replies || status=1
    check_report || status=1
fi
cost
exit "$status"
