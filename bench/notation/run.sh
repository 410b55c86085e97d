#!/usr/bin/env bash
# SPDX-License-Identifier: MIT
# Times of reading and writing values: apcu_run's store and fetch of a text, and PHP's unserialize and serialize
# of the same text (if php is installed). Both are whole programs, from standard input to standard output, each
# without the cost of starting; their ratio; what the two calls of PHP alone take, inside its process; and the growth
# from half of the text to the whole.
# Usage: bench/notation/run.sh [PROGRAM]
set -eu
here=$(cd "$(dirname "${BASH_SOURCE[0]}")" && pwd)
program=${1:-$here/../../crates/apcu_run/out/apcu_run}
scratch=$(mktemp -d)
trap 'rm -rf "$scratch"' EXIT

# The least of five times of a program from an input to $scratch/out, in microseconds.
spent() {
    local input=$1 best=0 begin end
    shift
    for _ in 1 2 3 4 5; do
        begin=$(date +%s%N)
        "$@" <"$input" >"$scratch/out"
        end=$(date +%s%N)
        local took=$(((end - begin) / 1000))
        if [ "$best" -eq 0 ] || [ "$took" -lt "$best" ]; then best=$took; fi
    done
    echo "$best"
}

# What PHP is to do with its input.
again='$text = stream_get_contents(STDIN); if ($text !== "") echo serialize(unserialize($text));'

# The least of three times of PHP's two calls alone, in microseconds.
calls_spent() {
    "$php" -d memory_limit=-1 -r '
        $text = file_get_contents($argv[1]);
        $best = INF;
        for ($i = 0; $i < 3; $i++) {
            $begin = hrtime(true);
            $value = unserialize($text);
            $again = serialize($value);
            $best = min($best, hrtime(true) - $begin);
            unset($value, $again);
        }
        printf("%d", $best / 1000);' "$1"
}

# The script that stores and fetches a text.
script_of() {
    printf 'worker\napcu_store s:1:"a"; '
    cat "$1"
    printf '\napcu_fetch s:1:"a";\n'
}

: >"$scratch/empty"
start=$(spent "$scratch/empty" "$program")
php=$(command -v php || true)
if [ -n "$php" ]; then php_start=$(spent "$scratch/empty" "$php" -d memory_limit=-1 -r "$again"); fi
printf '%-9s %10s %9s %9s %6s %9s %7s\n' text bytes run_ms php_ms ratio calls_ms growth
for row in "integers 350000 700000" "strings 100000 200000" "string 5000000 10000000" "nested 1000 2000"; do
    read -r kind half whole <<<"$row"
    before=0
    for size in $half $whole; do
        awk -v kind="$kind" -v size="$size" -f "$here/texts.awk" >"$scratch/text"
        script_of "$scratch/text" >"$scratch/script"
        took=$(($(spent "$scratch/script" "$program") - start))
        { printf 'worker 0\nb:1;\n'; cat "$scratch/text"; printf 'b:1;\njournal\n0\n0\n0\n'; } | cmp -s - "$scratch/out" || echo "$kind: another value came back" >&2
        php_took=- php_calls=-
        if [ -n "$php" ]; then
            php_took=$(($(spent "$scratch/text" "$php" -d memory_limit=-1 -r "$again") - php_start))
            cmp -s "$scratch/text" "$scratch/out" || echo "$kind: another value came back from php" >&2
            php_calls=$(calls_spent "$scratch/text")
        fi
        bytes=$(wc -c <"$scratch/text")
        echo "$kind $bytes $took $php_took $php_calls $before" | awk '
            function ms(t) { return t == "-" ? "-" : sprintf("%.1f", t / 1000) }
            {
                ratio = $4 == "-" ? "-" : sprintf("%.2f", $3 / $4)
                growth = $6 > 0 ? sprintf("%.2f", $3 / $6) : "-"
                printf "%-9s %10d %9s %9s %6s %9s %7s\n", $1, $2, ms($3), ms($4), ratio, ms($5), growth
            }'
        before=$took
    done
done
