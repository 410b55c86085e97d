#!/usr/bin/env bash
# SPDX-License-Identifier: MIT
# Writes docs/DIFFERENCES.md: the frame docs/differences/page.md, with a table of the cases A to B of docs/differences/
# instead of each line `{cases A to B}`. A case that breaks the form, or is in no table, is refused.
# With --check nothing is written, and a page that is not what the cases make is refused.
# Usage: docs/differences.sh [--check]
set -eu
cd "$(dirname "${BASH_SOURCE[0]}")"

page() {
    awk '
    function refuse(what) {
        print "differences.sh: " what > "/dev/stderr"
        is_refused = 1
        exit 1
    }
    function has(path,    line, is_there) {
        is_there = (getline line < path) >= 0
        close(path)
        return is_there
    }
    # A case is its title, a line of each column, and three texts that begin with these words.
    function read_case(folder,    n, path, line, part, heads, count, has_text, i) {
        n = folder + 0
        if (n in folders) refuse("two cases have the number " n)
        folders[n] = folder
        if (n > last) last = n
        count = split("**APCu.**|**This cache.**|**Why.**", heads, "|")
        path = folder "/README.md"
        while ((getline line < path) > 0) {
            if (line ~ /^# /) title[n] = substr(line, 3)
            else if (line ~ /^- kind: /) kind[n] = substr(line, 9)
            else if (line ~ /^- example: /) example[n] = substr(line, 12)
            else if (line ~ /^- extension: /) extension[n] = substr(line, 14)
            else {
                for (i = 1; i <= count; i++) if (index(line, heads[i]) == 1) part = i
                if (part) has_text[part] = 1
                else if (line != "") refuse(path ": text in front of the first part")
            }
        }
        close(path)
        if (!(title[n] && example[n] && extension[n])) refuse(path ": no title, no example or no extension")
        if (!(kind[n] in kinds)) refuse(path ": no such kind: " kind[n])
        for (i = 1; i <= count; i++) if (!(i in has_text)) refuse(path ": no part " heads[i])
        if (!has(folder "/case.php") || !has(folder "/apcu_prints")) refuse(folder ": no PHP, or not what it prints")
        if ((has(folder "/case.apcu") || has(folder "/case.sh")) != has(folder "/prints"))
            refuse(folder ": a script without what it prints, or the other way round")
    }
    function row(n) {
        if (!(n in folders)) refuse("page.md: there is no case " n)
        if (n in shown) refuse("page.md: the case " n " is in two tables")
        shown[n] = 1
        print "| " n " | [" title[n] "](differences/" folders[n] ") | " example[n] " | " kind[n] " | " extension[n] " |"
    }
    BEGIN {
        kinds["another answer"]; kinds["refused"]; kinds["other numbers"]; kinds["only here"]
        for (i = 1; i < ARGC - 1; i++) read_case(ARGV[i])
        for (i = 1; i < ARGC - 1; i++) ARGV[i] = ""
    }
    /^\{cases [0-9]+ to [0-9]+\}$/ {
        print "| | difference | APCu; here | kind | extension |\n|---|---|---|---|---|"
        for (n = $2; n <= $4 + 0; n++) row(n + 0)
        next
    }
    { print }
    END {
        if (is_refused) exit 1
        for (n in folders) if (!(n in shown)) refuse("page.md: the case " n " is in no table")
    }' [0-9]* page.md
}

cd differences
scratch=$(mktemp -d)
trap 'rm -rf "$scratch"' EXIT
page >"$scratch/DIFFERENCES.md"
if cmp -s "$scratch/DIFFERENCES.md" ../DIFFERENCES.md; then
    exit
elif [ "${1:-}" != --check ]; then
    cat "$scratch/DIFFERENCES.md" >../DIFFERENCES.md
else
    echo 'docs/DIFFERENCES.md is not what docs/differences.sh writes' >&2
    exit 1
fi
