#!/usr/bin/env bash
# SPDX-License-Identifier: MIT
# That the pages are right: links, and paths of this repository in backquotes, lead to files; CLAIMS, READING, the
# tables of ARCHITECTURE, and DIFFERENCES are what their scripts write; the clause that README shows is in the sources; no
# file has more words of checks/words.py's list than it may keep; capi/cache_c.h says of the library what it is
# (checks/header.py); the commands of the pages of examples/, which show the programs in Rust, print what they say; and
# each case of DIFFERENCES prints on both sides what its folder says. With --written only what needs neither a program
# nor PHP is checked.
# Usage: checks/pages.sh [--written | PROGRAM]; without --written it needs php with apcu and pcntl.
set -u
is_written=''
if [ "${1:-}" = --written ]; then
    is_written=yes
    shift
fi
program=${1:+$(realpath "$1")}
cd "$(dirname "${BASH_SOURCE[0]}")/.."
others=0

tell() {
    echo "$1" >&2
    others=1
}

# The lines of README between two, without their four spaces, are in a file as they are, except for where they begin.
shown() {
    local from=$1 to=$2 file=$3 lines
    lines=$(sed -n "/^    $from/,/$to/p" README.md | sed 's/^ *//')
    [ -n "$lines" ] || { tell "README.md does not show: $from"; return; }
    python3 -c 'import sys
text = "\n".join(line.strip() for line in open(sys.argv[2], encoding="utf-8"))
sys.exit(sys.argv[1] not in text)' "$lines" "$file" || tell "README.md shows otherwise than $file: $from"
}

python3 checks/links.py || others=1
python3 checks/words.py || others=1
python3 checks/header.py || others=1
for page in claims reading crates differences; do
    bash "docs/$page.sh" --check || others=1
done
shown 'ensures replayed' 'K.held out.new)) }$' crates/apcu_play/src/running.rt
[ -z "$is_written" ] || exit "$others"
bash checks/examples.sh ${program:+"$program"} || others=1
bash checks/differences.sh ${program:+"$program"} || others=1
exit $others
