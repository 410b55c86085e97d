#!/usr/bin/env bash
# SPDX-License-Identifier: MIT
# Writes the engine as assembly text, cache_c.x86_64.s and cache_c.aarch64.s in this folder, so that it is built without
# Rattle's kit. ../../prove --library proves the crates and builds the library for each processor; clang writes the text
# of what it compiles. It begins with the verdicts and the checksums of the sources.
#
#   capi/engine/write.sh            writes the texts; it needs the kit
#   capi/engine/write.sh --compare  does the same elsewhere, and fails if a text here is another; it needs the kit
#   capi/engine/write.sh --check    fails if the texts are of other sources than those here, by the checksums alone
#
# The first two leave the library for x86_64 in crates/cache_c/out/libcache_c.a. Statuses: 0, 1 if a text is another,
# those of ../../prove.
set -u -o pipefail
here=$(cd "$(dirname "${BASH_SOURCE[0]}")" && pwd)
top=$(cd "$here/../.." && pwd)
cpus=(x86_64 aarch64)

say() { printf 'write.sh: %s\n' "$1" >&2; }

# The checksum of each crate's sources: of the names and the lines of the files in src/, without lines of comment.
sums() {
    local crate
    "$top/prove" --library --list | while read -r crate; do
        printf ' *   %s %s\n' "$(cd "$top/crates/$crate" && find src -type f -print0 | LC_ALL=C sort -z |
            while IFS= read -r -d '' file; do echo "$file" && sed '/^[[:space:]]*\/\//d' "$file"; done |
            sha256sum | cut -d ' ' -f 1)" "$crate"
    done
}

# A text with its head: head CPU FOLDER
head_of() {
    local cpu=$1 folder=$2
    cat <<END
/* SPDX-License-Identifier: MIT
 *
 * The engine: the functions of ../cache_c.h whose names end in _unchecked, and cache_size, for $cpu.
 *
 * Don't edit this file. capi/engine/write.sh writes it: the crates below are proved, rattle compiles them to a module of
 * LLVM, and the kit's clang writes the module's instructions as this text. Functions have the names of the sources.
 *
 * The verdict on what was compiled:
 *
 *   $(cat "$folder/cache_c.$cpu.verdict")
 *   $(rt version)
 *
 * The crates, each with the SHA-256 of its sources without comments:
 *
$(cat "$folder/sums")
 */
END
    cat "$folder/cache_c.$cpu.s"
}

check() {
    local cpu status=0
    sums >"$scratch/sums" || exit 1
    for cpu in "${cpus[@]}"; do
        if [ ! -f "$here/cache_c.$cpu.s" ]; then
            say "there is no cache_c.$cpu.s"
            status=1
        elif ! grep -E '^ \*   [0-9a-f]{64} [a-z0-9_]+$' "$here/cache_c.$cpu.s" | diff - "$scratch/sums" >"$scratch/other"; then
            say "cache_c.$cpu.s is of other sources: $(awk '/^[<>]/ { print $NF }' "$scratch/other" | sort -u | tr '\n' ' ')"
            status=1
        fi
    done
    if [ "$status" != 0 ]; then say 'capi/engine/write.sh writes it again, with the kit'; fi
    return "$status"
}

compare() {
    local cpu status=0
    for cpu in "${cpus[@]}"; do
        if ! diff "$here/cache_c.$cpu.s" "$scratch/new/cache_c.$cpu.s" >"$scratch/other" 2>&1; then
            head -n 12 "$scratch/other" >&2
            say "cache_c.$cpu.s is not that of the proved sources: run capi/engine/write.sh and commit what it writes"
            status=1
        fi
    done
    return "$status"
}

scratch=$(mktemp -d) || exit 70
trap 'rm -rf "$scratch"' EXIT
case "$# ${1:-}" in
    '0 ' | '1 --compare') ;;
    '1 --check')
        check
        exit
        ;;
    '1 -h' | '1 --help')
        sed -n '2,/^set/{/SPDX/d;/^#/s/^# \{0,1\}//p}' "$0"
        exit
        ;;
    *)
        say 'usage: capi/engine/write.sh [--compare | --check]'
        exit 1
        ;;
esac
mkdir "$scratch/new" || exit 70
sums >"$scratch/sums" || exit 1
"$top/prove" --library --text "$scratch/made" || exit
sums >"$scratch/made/sums" || exit 1
if ! cmp -s "$scratch/sums" "$scratch/made/sums"; then
    say 'a source was changed meanwhile'
    exit 70
fi
for cpu in "${cpus[@]}"; do head_of "$cpu" "$scratch/made" >"$scratch/new/cache_c.$cpu.s" || exit 70; done
if [ $# = 1 ]; then
    compare
    exit
fi
for cpu in "${cpus[@]}"; do
    mv "$scratch/new/cache_c.$cpu.s" "$here/.cache_c.$cpu.s.new" && mv "$here/.cache_c.$cpu.s.new" "$here/cache_c.$cpu.s" || exit 70
done
say "written: capi/engine/cache_c.x86_64.s and cache_c.aarch64.s"
