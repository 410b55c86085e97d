#!/usr/bin/env bash
# SPDX-License-Identifier: MIT
# The goals for the speed of this cache, compared with PHP's APCu in the same run, as one table with the ratio (ours /
# PHP's) first. A goal is of the ratio, of our own figure, or of ours / the floor:
# - generated runs of one and of four workers, and of 64 compared with four;
# - a million calls from a script to its output, compared with PHP's loop;
# - fetches that are printed whole; their floor is a program in C that holds its output likewise (floor/fetch.c);
# - stores of texts that change, without what as many lines take that are read and find the row; they have no goal,
#   since each changed word is one locked instruction.
# generate/run.sh and play/run.sh, which have these parts in common with this script, say how each figure is measured.
# Each time is the least of three rounds, in each of which ours, PHP's and the floor are measured in turn; a round is
# kept only if the machine is quiet before and after it (quiet.sh).
# Usage: bench/goals.sh PROGRAM, the built apcu_run; it needs php with apcu and pcntl, and cc. BEFORE=PROGRAM in the
# environment is an earlier program, which is measured in turn with it, as a column, and DIVIDE=N makes N times fewer
# calls, which tries the script alone. It takes a few minutes, and up to five more if it waits for a quiet machine.
set -eu -o pipefail
here=$(cd "$(dirname "${BASH_SOURCE[0]}")" && pwd)
[ $# = 1 ] || { echo "usage: $0 PROGRAM" >&2; exit 1; }
program=$1
divide=${DIVIDE:-1}
scratch=$(mktemp -d)
trap 'rm -rf "$scratch"' EXIT
# The large pages that the wrapper asks for.
export GLIBC_TUNABLES=glibc.malloc.hugetlb=1
. "$here/quiet.sh"
. "$here/generate/parts.sh"
. "$here/play/parts.sh"
php_has apcu pcntl || { echo "$0: php with apcu and pcntl is not there" >&2; exit 1; }
for each in "$program" ${BEFORE:+"$BEFORE"}; do
    [ -x "$each" ] || { echo "$0: no program: $each" >&2; exit 1; }
done
cc -std=gnu11 -O3 -Wall -Wextra -Wpedantic "$here/floor/fetch.c" -o "$scratch/fetch"

# This many calls, or the part of them that is wanted.
part() { echo $((($1 + divide - 1) / divide)); }

# What is measured in turn: of our program, of the one before, and of PHP, each as many numbers. They are pairs, of
# which the second is what does not belong to the first.
in_turn() {
    local of_ours=$1 of_php=$2 ours before theirs
    shift 2
    ours=$("$of_ours" "$program" "$@")
    before=$(sed 's/[^ ][^ ]*/-/g' <<<"$ours")
    if [ -n "${BEFORE:-}" ]; then before=$("$of_ours" "$BEFORE" "$@"); fi
    theirs=$("$of_php" "$@")
    echo "$ours $before $theirs"
}

# The same of generated runs, whose last ones count alike.
generated_in_turn() {
    in_turn "$@"
    check_counters 'generated runs'
}

# Writes a row of the table: what was measured, its unit and places, its goal (`ratio N`, `ours N`, `floor N`, or
# `none`), and the figures of us, before, of PHP, and of the floor if there is one.
row() { printf '%s|' "$@" >>"$scratch/rows" && echo >>"$scratch/rows"; }

# Of the pairs in `found` number K of us, before, of PHP, and of the floor if there are four sides: the first less
# the second, divided by a number.
figures() {
    awk -v k="$1" -v unit="${2:-1}" -v sides="${3:-3}" '{
        for (i = 0; i < sides; i++) {
            first = i * NF / sides + 2 * k - 1
            told = NF > 1 && $first != "-"
            printf "%s%s", (i ? "|" : ""), (told ? sprintf("%.6g", ($first - $(first + 1)) / unit) : "-")
        }
    }' <<<"$found"
}

say() { echo "$1 .." >&2; }

say 'generated runs'
loop_php() { echo "$(generated_php "$@") 0"; }
measured 1 generated_in_turn generated_run loop_php 1 "$(part 1000000)"
row 'a call of one generated worker' ns 0 'ratio 0.75' "$(figures 1)"

# Four workers, and 64.
four_and_64() { echo "$(generated_run "$1" 4 "$(part 1000000)") $(generated_run "$1" 64 "$(part 65000)")"; }
four_and_64_php() { echo "$(loop_php 4 "$(part 1000000)") $(loop_php 64 "$(part 65000)")"; }
measured 4 generated_in_turn four_and_64 four_and_64_php
row 'a call of four generated workers' ns 0 'ratio 0.6' "$(figures 1)"
row 'a call of 64 generated workers' ns 0 none "$(figures 2)"
row '64 workers / four workers' times 2 'ours 1.2' "$(awk -F'|' '
    NR == FNR { split($0, four); next }
    {
        for (i = 1; i <= 3; i++)
            printf "%s%s", (i > 1 ? "|" : ""), (four[i] == "-" || $i == "-" ? "-" : $i / four[i])
    }' \
    <(figures 1) <(figures 2))"

say 'a million calls'
generated "$generated_seed" "$(part 1000000)" >"$scratch/script"
million() { echo "$(script_took "$1" "$scratch/script") 0"; }
# In microseconds.
million_php() { generated_php 1 "$(part 1000000)" | awk -v n="$(part 1000000)" '{ printf "%.1f 0\n", $1 * n / 1000 }'; }
measured 1 in_turn million million_php
row 'a million calls, script to output (goal: 0.30 where PHP takes 0.5)' s 2 'ratio 0.6' "$(figures 1 1e6)"

say 'texts'
# Microseconds of as many fetches in C, whose output is held until the last one.
held() {
    awk -v ns="$("$scratch/fetch" hold "$1" "$2")" -v calls="$2" 'BEGIN { printf "%.0f 0\n", ns * calls / 1000 }'
}
for line in '10 KB 10000 5000' '64 KB 65536 800' '1 MB 1000000 50'; do
    read -r size unit bytes calls <<<"$line"
    calls=$(part "$calls")
    texts 1 "$calls" "$bytes" 0 >"$scratch/script"
    texts 1 0 "$bytes" 0 >"$scratch/idle"
    fetches_php() { echo "$(played_php text 1 "$calls" "$bytes" 0) 0"; }
    fetches() { echo "$(in_turn both_took fetches_php) $(held "$bytes" "$calls")"; }
    measured 1 fetches
    row "a fetch of $size $unit, printed" us 2 'floor 1.3' "$(figures 1 "$calls" 4)"
done
for line in '10 KB 10000 4000' '64 KB 65536 600' '1 MB 1000000 40'; do
    read -r size unit bytes calls <<<"$line"
    calls=$(part "$calls")
    stores "$calls" "$bytes"
    stores_php() { echo "$(played_php text 1 "$calls" "$bytes" 1) 0"; }
    measured 1 in_turn both_took stores_php
    row "a store of $size $unit that changes all words" us 2 none "$(figures 1 "$calls")"
done

echo "$(nproc) processors; PHP $(php -r 'echo PHP_VERSION, " with APCu ", phpversion("apcu");')"
awk -F'|' '
    function told(value, places) { return value == "-" ? "-" : sprintf("%.*f", places, value) }
    function over(one, other) { return one == "-" || other + 0 == 0 ? "-" : one / other }
    BEGIN {
        format = "%6s  %-7s  %-18s  %8s  %8s  %8s  %8s  %-5s  %s\n"
        printf format, "ratio", "reached", "goal", "ours", "before", "php", "floor", "", "of"
    }
    {
        floor = NF > 8 ? $8 : "-"
        split($4, goal, " ")
        value = goal[1] == "ratio" ? over($5, $7) : goal[1] == "floor" ? over($5, floor) : $5
        reached = goal[1] == "none" ? "-" : value == "-" ? "?" : value + 0 <= goal[2] + 0 ? "yes" : "no"
        if (noisy && reached != "-") reached = "?"
        wanted = goal[1] == "none" ? "none" : goal[1] " at most " goal[2]
        printf format, told(over($5, $7), 2), reached, wanted, told($5, $3), told($6, $3), told($7, $3),
            told(floor, $3), $2, $1
    }' noisy="${NOISY:-}" "$scratch/rows"
tell_of_quiet
