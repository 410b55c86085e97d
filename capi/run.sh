#!/usr/bin/env bash
# SPDX-License-Identifier: MIT
# Compiles the programs of this folder over the library for C, runs each in bounded time, and judges what it prints:
# `test` makes each call, also with each null pointer; `reads` compares shared look-ups, which are counted later, with
# calls; `hosted` tries the hooks of a host; `forked` has eight processes that count to a million and 300 that are killed; `copies` reads outside of the lock
# while others store; `deaths` kills a process after each instruction in turn; `locks` does the same at the lock, and
# `lanes` for reads in lanes; `lanes_model` checks all interleavings of two readers and a writer, and finds each of its
# faults; `full` fills 2 GB of words and reads them again; and `memory` checks how calls use memory. The last line is
# 'N passed, N failed'; a line says what is skipped because this machine or this library cannot do it.
#
#   capi/run.sh [--quick]
#
# --quick leaves out the 2 GB, `locks` and `lanes`. CACHE_C_LIB=FILE in the environment is a library to link instead of
# the engine's assembly text.
set -eu -o pipefail
here=$(cd "$(dirname "${BASH_SOURCE[0]}")" && pwd)
case "$# ${1:-}" in
    '0 ' | '1 --quick') ;;
    '1 -h' | '1 --help') sed -n '2,/^set/{/SPDX/d;/^#/s/^# \{0,1\}//p}' "$0" && exit ;;
    *) echo 'usage: capi/run.sh [--quick]' >&2 && exit 1 ;;
esac
scratch=$(mktemp -d)
trap 'rm -rf "$scratch"' EXIT
passed=0 failed=0

library=${CACHE_C_LIB:-}
if [ -z "$library" ]; then
    library=$scratch/cache_c.o
    cc -c "$here/engine/cache_c.$(uname -m).s" -o "$library"
fi
flags=(-std=c11 -O2 -Wall -Wextra -Wpedantic -Wshadow -Wconversion -Werror)

pass() { passed=$((passed + 1)) && echo "passed: $1"; }
fail() { failed=$((failed + 1)) && echo "failed: $1"; }
skip() { echo "skipped: $1"; }

# Runs this program with its arguments for at most this many seconds; it has to succeed, and to print these lines.
run() {
    local seconds=$1 command status=0 line
    read -ra command <<<"$2"
    shift 2
    timeout -s KILL "$seconds" "$scratch/${command[0]}" "${command[@]:1}" >"$scratch/printed" || status=$?
    sed 's/^/    /' "$scratch/printed"
    case $status in
        0) ;;
        77) skip "${command[*]}" && return ;;
        137) fail "${command[*]}: not in $seconds seconds" && return ;;
        *) fail "${command[*]}: status $status" && return ;;
    esac
    for line in "$@"; do
        grep -qxE "$line" "$scratch/printed" || { fail "${command[*]}: no line '$line'" && return; }
    done
    pass "${command[*]}"
}

for program in test forked copies deaths full; do
    cc "${flags[@]}" "$here/$program.c" "$here/shared_cache.c" "$library" -lpthread -o "$scratch/$program"
done
cc "${flags[@]}" "$here/reads.c" "$library" -o "$scratch/reads"
# It includes shared_cache.c.
cc "${flags[@]}" "$here/hosted.c" "$library" -lpthread -o "$scratch/hosted"
cc "${flags[@]}" "$here/replay.c" "$library" -o "$scratch/apcu_replay"
# It has an allocator of its own.
cc "${flags[@]}" "$here/memory.c" "$library" -o "$scratch/memory"
cc "${flags[@]}" "$here/lanes_model.c" -o "$scratch/lanes_model"
# No step is in the loader.
cc "${flags[@]}" "$here/locks.c" -lpthread -Wl,-z,now -o "$scratch/locks"
cc "${flags[@]}" "$here/lanes.c" "$here/shared_cache.c" "$library" -lpthread -Wl,-z,now -o "$scratch/lanes"
pass 'each program is compiled without a warning'
if command -v c++ >/dev/null; then
    c++ -std=c++11 "${flags[@]:1}" -fsyntax-only -x c++ - <<<"#include \"$here/cache_c.h\""
    pass 'the header is C++ too'
else
    skip 'the header as C++: there is no c++'
fi

run 60 test '[1-9][0-9]* passed, 0 failed'
run 60 'test nulls' '[1-9][0-9]* passed, 0 failed'
run 60 reads '[1-9][0-9]* passed, 0 failed'
run 60 hosted '[1-9][0-9]* passed, 0 failed'
run 60 memory '.*, [1-9][0-9]* expunges, .*; 0 calls did otherwise'
run 300 'forked 125000 300' '8 children counted to 1000000 of 1000000' '300 kills: .*' \
    '0 children read a torn text .*'
run 120 'copies 300' '[1-9][0-9]* copies were whole, .*, 0 were torn'
run 600 deaths 'deaths in a store: .*; 0 wrong' 'deaths in recreating it: 0 .*, 0 .*; 0 wrong' \
    'deaths in a copy: .*; 0 wrong' "deaths in a host's store: .*; 0 wrong" \
    "deaths in a host's copy: .*; 0 wrong"
run 120 lanes_model 'no process dies, .*: as it should be' 'each process may die .*: as it should be'
for fault in {1..9}; do
    status=0
    timeout -s KILL 120 "$scratch/lanes_model" "$fault" >"$scratch/printed" || status=$?
    if [ "$status" = 1 ]; then
        pass "lanes_model $fault: $(sed -n '/as it should be/!s/.*: //p' "$scratch/printed" | head -n 1)"
    else
        fail "lanes_model: the fault $fault is not found"
    fi
done
if [ "${1:-}" = --quick ]; then
    skip 'locks, lanes: --quick'
else
    run 900 locks 'as it should be'
    run 600 lanes 'fetching: .*; 0 wrong' 'counting: .*; 0 wrong' 'as it should be'
fi
run 120 'full 16777216' 'all read back, .*'
# Words and index take 2.4 GB.
free_kb=$(awk '$1 == "MemAvailable:" { print $2 }' /proc/meminfo)
if [ "${1:-}" = --quick ]; then
    skip 'full 268435456: --quick'
elif [ "$free_kb" -ge 3000000 ]; then
    run 300 'full 268435456' 'all read back, .*'
else
    skip "full 268435456: $free_kb KB of memory are free"
fi
echo "$passed passed, $failed failed"
[ "$failed" = 0 ]
