#!/bin/sh
# SPDX-License-Identifier: MIT
# Runs apcu_run. The program touches most of its memory once, which costs less in pages of 2 MB.
if [ "$# ${1:-}" = '1 --version' ]; then
    echo 'apcu_run @VERSION@'
    exit
fi
GLIBC_TUNABLES="${GLIBC_TUNABLES:+$GLIBC_TUNABLES:}glibc.malloc.hugetlb=1"
export GLIBC_TUNABLES
exec /usr/lib/yilumbaso/apcu_run "$@"
