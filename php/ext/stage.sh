#!/bin/sh
# SPDX-License-Identifier: MIT
# Copies the source package of the extension into a folder: the extension, its tests, the shared memory (capi), the
# headers and the assembly text of the engine. phpize works there, and so does `pecl package`.
#
#   php/ext/stage.sh FOLDER
#
# The folder must be empty or absent.
set -eu

ext=$(cd "$(dirname "$0")" && pwd)
top=$(cd "$ext/../.." && pwd)

case ${1:-} in
    -h | --help) sed -n '2,/^set/{/SPDX/d;/^#/s/^# \{0,1\}//p}' "$0"; exit ;;
esac
[ $# = 1 ] || { echo 'usage: php/ext/stage.sh FOLDER' >&2; exit 1; }
mkdir -p "$1"
[ -z "$(ls -A "$1")" ] || { echo "stage.sh: $1 is not empty" >&2; exit 1; }

mkdir -p "$1/tests" "$1/capi/engine"
cp "$ext"/*.c "$ext"/*.h "$ext/engine.S" "$ext/apcu.stub.php" "$ext/config.m4" "$ext/Makefile.frag" "$1/"
cp "$ext"/tests/*.phpt "$ext"/tests/*.inc "$1/tests/"
for file in cache_c.h lanes.h record_file.h robust_lock.h seats.h shared_cache.c shared_cache.h shared_host.h; do
    cp "$top/capi/$file" "$1/capi/"
done
cp "$top"/capi/engine/*.s "$1/capi/engine/"
cp "$top/LICENSE" "$top/CHANGELOG.md" "$1/"
rm -f "$1/config.h" # of a build in the folder itself

cd "$1"
find . -type f ! -name .contents | LC_ALL=C sort | sed -e 's,^\./,,' \
    -e 's,^tests/.*,   <file name="&" role="test"/>,' -e 's,^[A-Z]*\(\.md\)*$,   <file name="&" role="doc"/>,' \
    -e 's,^[^ ].*,   <file name="&" role="src"/>,' > .contents
sed -e '/@CONTENTS@/{r .contents' -e 'd}' "$ext/package.xml.in" > package.xml
rm .contents
