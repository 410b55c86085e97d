#!/usr/bin/env bash
# SPDX-License-Identifier: MIT
# Plays each case of docs/differences/ on PHP's APCu and on the program, and reports each whose output is not the one in
# its folder. If several workers meet, the output in the folder is judged as an output of the case's script, and so is
# that of the program. With the extension, SO, it plays the PHP of each case there too: it prints what APCu
# prints exactly in the cases that say so. The page that is made of the cases has to be up to date. With --program only
# the program's side is played, which needs no PHP.
# Usage: checks/differences.sh [--program] [PROGRAM [SO]]; without --program it needs php with apcu and pcntl, and with SO php-dev.
set -eu
of_program=''
if [ "${1:-}" = --program ]; then
    of_program=yes
    shift
fi
here=$(cd "$(dirname "${BASH_SOURCE[0]}")" && pwd)
program=$(realpath "${1:-$here/../crates/apcu_run/out/apcu_run}")
so=${2:+$(realpath "$2")}
cases=$(cd "$here/../docs/differences" && pwd)
scratch=$(mktemp -d)
trap 'rm -rf "$scratch"' EXIT
others=0

# The settings in the first line of a script for PHP, a line each.
settings() {
    sed -n -e '2s/^\/\/ apc/apc/' -e '2s/, /\n/g' -e '2{/^apc/p' -e '}' "$1"
}

# What PHP prints for a case, without its warnings; with a folder of settings instead of its own.
ask_php() {
    local words=() setting
    [ $# = 1 ] || local -x PHP_INI_SCAN_DIR=$2
    while IFS= read -r setting; do words+=(-d "$setting"); done < <(settings "$1/case.php")
    cd "$1"
    php -d apc.enable_cli=1 -d apc.use_request_time=0 "${words[@]}" -d display_errors=0 -d log_errors=0 case.php \
        2>/dev/null || true
}

# What the program prints for a case, with its message.
ask_program() {
    local options=()
    if [ -e "$1/case.sh" ]; then
        (cd "$scratch" && bash "$1/case.sh" 2>&1) || true
        return
    fi
    [ ! -e "$1/options" ] || read -ra options <"$1/options"
    "$program" "${options[@]}" <"$1/case.apcu" 2>&1 || true
}

# The verdict on an output of the case's script.
judge() {
    local options=()
    [ ! -e "$1/options" ] || read -ra options <"$1/options"
    cat "$1/case.apcu" "$2" | "$program" "${options[@]}" --verify "$(wc -c <"$1/case.apcu")" 2>&1 || true
}

# Reports for a case and a side what it prints, and what it should.
tell() {
    others=$((others + 1))
    echo "${1##*/}: $2 prints something else" >&2
    diff "$3" "$4" >&2 || true
}

# Tells of an output of several workers that is none of the case's script.
try_output() {
    local verdict
    verdict=$(judge "$1" "$3")
    [ "$verdict" != yes ] || return 0
    others=$((others + 1))
    echo "${1##*/}: $2 is no output of its script: $verdict" >&2
}

# A folder of PHP's settings, but with the extension instead of APCu.
settings_with() {
    local file
    mkdir "$scratch/settings"
    for file in "$(php-config --ini-dir)"/*.ini; do
        grep -Eq '^ *extension *= *"?apcu' "$file" || ln -s "$file" "$scratch/settings/"
    done
    echo "extension=$1" >"$scratch/settings/20-cache.ini"
}

# Whether what was printed is what APCu prints for a case.
is_of_apcu() {
    cmp -s "$1/apcu_prints" "$2" || { [ -e "$1/apcu_may_print" ] && cmp -s "$1/apcu_may_print" "$2"; }
}

# The side of the extension.
try_extension() {
    local printed=$scratch/${1##*/}.so wanted
    wanted=$(sed -n 's/^- extension: //p' "$1/README.md")
    if [ "$wanted" = 'as APCu' ]; then
        is_of_apcu "$1" "$printed" || tell "$1" 'the extension' "$1/apcu_prints" "$printed"
    elif is_of_apcu "$1" "$printed"; then
        others=$((others + 1))
        echo "${1##*/}: the extension prints what APCu prints, and not: $wanted" >&2
    fi
}

# The side of the program.
try_program() {
    local printed=$scratch/${1##*/}.program
    ask_program "$1" >"$printed"
    if ! grep -qx journal "$1/prints"; then
        sed -i -e '/^journal$/,$d' "$printed"
    elif [ "$(grep -cx worker "$1/case.apcu")" -gt 1 ]; then
        try_output "$1" 'what stands there' "$1/prints"
        try_output "$1" 'what the program prints' "$printed"
        return
    fi
    cmp -s "$1/prints" "$printed" || tell "$1" 'the program' "$1/prints" "$printed"
}

"$here/../docs/differences.sh" --check || others=1
ln -s "$program" "$scratch/apcu_run"
if [ -n "$of_program" ]; then
    count=0
    for folder in "$cases"/[0-9]*; do
        [ -e "$folder/prints" ] || continue
        count=$((count + 1))
        try_program "$folder"
    done
    [ "$others" = 0 ] || exit 1
    echo "the program prints what $count cases of docs/differences say"
    exit
fi
# Most of PHP's time is waiting.
for folder in "$cases"/[0-9]*; do ask_php "$folder" >"$scratch/${folder##*/}.php" & done
if [ -n "$so" ]; then
    settings_with "$so"
    for folder in "$cases"/[0-9]*; do ask_php "$folder" "$scratch/settings" >"$scratch/${folder##*/}.so" & done
fi
for folder in "$cases"/[0-9]*; do [ ! -e "$folder/prints" ] || try_program "$folder"; done
wait
count=0
for folder in "$cases"/[0-9]*; do
    count=$((count + 1))
    printed=$scratch/${folder##*/}.php
    is_of_apcu "$folder" "$printed" || tell "$folder" PHP "$folder/apcu_prints" "$printed"
    [ -z "$so" ] || try_extension "$folder"
done
[ "$others" = 0 ] || exit 1
echo "$count cases of docs/differences print on both sides what their pages say${so:+, and with the extension what they say}"
