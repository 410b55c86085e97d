#!/usr/bin/env bash
# SPDX-License-Identifier: MIT
# The time of the commands of README's Try it from nothing, by the clock and of processors: the first example by rt try,
# ./prove, and the example by the program that is built then. They run in a clone of what is committed here, with a copy
# of the kit by hard links, for which rt has kept no proofs. Clone and copy are removed at the end.
# Usage: bench/nothing.sh [PROCESSORS [FOLDER]], on a machine without other work. The commands may use this many
# processors, by default all of them. FOLDER, by default /tmp, is for clone and copy, on the file system of the kit.
set -eu
home=$(cd "$(dirname "${BASH_SOURCE[0]}")/.." && pwd)
kit=$(dirname "$(dirname "$(realpath "$(command -v rt)")")")
processors=${1:-$(nproc)}
room=$(mktemp -d "${2:-/tmp}/nothing-XXXXXX")
trap 'rm -rf "$room"' EXIT
trap 'exit 130' INT TERM
# rt runs programs as an unprivileged user, which must be able to read this.
chmod 711 "$room"
cp -al "$kit" "$room/kit"
git clone -q "$home" "$room/clone"
cd "$room/clone"
export PATH=$room/kit/bin:$PATH
of=$(taskset -cp $$ | sed 's/.*: //' | tr , '\n' | while IFS=- read -r from to; do seq "$from" "${to:-$from}"; done |
    head -n "$processors" | paste -sd ,)

# Prints what a command took; a name for it comes before its words. Its own output is shown.
tell() {
    local name=$1 status=0 TIMEFORMAT='%R %U %S'
    shift
    exec 3>&2
    { time taskset -c "$of" "$@" <examples/first.apcu >"$room/out" 2>&3; } 2>"$room/took" || status=$?
    awk -v name="$name" -v status="$status" '{
        printf "%-40s  %3d min %2d s by the clock  %6d s of processors  status %d\n", name, $1 / 60, $1 % 60, $2 + $3, status
    }' "$room/took"
}

echo "$processors processors of $(nproc), load $(cut -d ' ' -f 1-3 /proc/loadavg); $(rt version); $(git log -1 --format=%h)"
tell './apcu_run < examples/first.apcu' ./apcu_run
cp "$room/out" "$room/tried"
tell './prove' ./prove
tell './apcu_run < examples/first.apcu, then' ./apcu_run
cmp "$room/tried" "$room/out"
echo "load $(cut -d ' ' -f 1-3 /proc/loadavg)"
