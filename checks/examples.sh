#!/usr/bin/env bash
# SPDX-License-Identifier: MIT
# The commands of the pages of examples/ print the output that follows them.
# Usage: checks/examples.sh [PROGRAM], where PROGRAM is the built apcu_run; it needs php with apcu and pcntl.
set -eu
here=$(cd "$(dirname "${BASH_SOURCE[0]}")" && pwd)
program=$(realpath "${1:-$here/../crates/apcu_run/out/apcu_run}")
cd "$here/.."
command='' wanted='' count=0 others=0

# Runs the command that was read, and compares.
check() {
    local printed
    [ -n "$command" ] || return 0
    # A command may end with another status than 0, and say so.
    printed=$(program=$program bash -c "${command//.\/apcu_run/\"\$program\"}" 2>&1 </dev/null) || true
    wanted=$(printf '%s' "$wanted")
    if [ "$printed" != "$wanted" ]; then
        echo "another output: $command" >&2
        diff <(echo "$wanted") <(echo "$printed") >&2 || true
        others=1
    fi
    count=$((count + 1))
    command='' wanted=''
}

while IFS= read -r line; do
    case $line in
        '    $ '*)
            check
            command=${line#'    $ '}
            ;;
        '    '*) [ -z "$command" ] || wanted+="${line#'    '}"$'\n' ;;
        # An empty line may be within the output.
        '') [ -z "$command" ] || wanted+=$'\n' ;;
        *) check ;;
    esac
done < <(cat examples/README.md examples/RUST.md)
check
[ "$others" = 0 ] || exit 1
echo "$count commands of the pages of examples/ print what the pages say"
