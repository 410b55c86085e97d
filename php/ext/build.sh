#!/bin/sh
# SPDX-License-Identifier: MIT
# Builds the extension, modules/apcu.so, by phpize, configure and make in a copy of its source package.
#
#   php/ext/build.sh
#
# CACHE_C_LIB=FILE in the environment links a library of the engine (../../prove --library) instead of the assembly
# text of capi/engine. PHPIZE and PHP_CONFIG name those of another PHP, JOBS how many jobs make runs (2).
set -eu

ext=$(cd "$(dirname "$0")" && pwd)
phpize=${PHPIZE:-phpize}
php_config=${PHP_CONFIG:-php-config}

case ${1:-} in
    '') ;;
    -h | --help) sed -n '2,/^set/{/SPDX/d;/^#/s/^# \{0,1\}//p}' "$0"; exit ;;
    *) echo 'usage: php/ext/build.sh' >&2; exit 1 ;;
esac
for tool in "$phpize" "$php_config"; do
    command -v "$tool" > /dev/null || { echo "build.sh: no $tool: apt-get install php-dev" >&2; exit 1; }
done
for tool in make cc; do
    command -v $tool > /dev/null || { echo "build.sh: no $tool: apt-get install build-essential" >&2; exit 1; }
done
library=
if [ -n "${CACHE_C_LIB:-}" ]; then
    [ -f "$CACHE_C_LIB" ] || { echo "build.sh: no library $CACHE_C_LIB" >&2; exit 1; }
    library=$(cd "$(dirname "$CACHE_C_LIB")" && pwd)/$(basename "$CACHE_C_LIB")
fi

work=$ext/.build
rm -rf "$work"
"$ext/stage.sh" "$work"
mkdir -p "$ext/modules"
cd "$work"
{
    "$phpize" && ./configure --with-php-config="$(command -v "$php_config")" ${library:+"--with-cache-c=$library"} &&
        make -j "${JOBS:-2}"
} > log 2>&1 || { tail -n 30 log >&2; echo "build.sh: see $work/log" >&2; exit 1; }
grep -E '\.[chS]:[0-9]+:.*warning:' log >&2 || true
cp modules/apcu.so "$ext/modules/apcu.so.new"
mv "$ext/modules/apcu.so.new" "$ext/modules/apcu.so" # processes that run keep theirs
rm -rf .libs # libtool's link in it would stop rt ci
echo "$ext/modules/apcu.so"
