#!/bin/bash
# SPDX-License-Identifier: MIT
# Replaces bin/clang in the toolchain folder that ./prove makes: compiles as the kit's clang would, ../kit/bin/clang,
# and writes the assembly text of the same module, for the same processor by the same options, into ../text.s.
set -eu
folder=${BASH_SOURCE[0]%/*}/..
words=()
for word in "$@"; do
    case $word in
        -c) words+=(-S) ;;
        *.o) words+=("$folder/text.s") ;;
        *) words+=("$word") ;;
    esac
done
# GNU as knows no .addrsig.
"$folder/kit/bin/clang" "${words[@]}" -fno-addrsig -fno-verbose-asm
exec "$folder/kit/bin/clang" "$@"
