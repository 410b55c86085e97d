#!/usr/bin/env bash
# SPDX-License-Identifier: MIT
# Runs what README, docs/EXTENSION.md and capi/README.md say of installing, in a fresh clone of this repository with no
# kit on the path, and prints the seconds of each: the extension by build.sh, by PHP's own lines with its tests, and as a
# package of PECL; composer.json; a C program by one line and by pkg-config. If a compiler and an emulator for aarch64 are
# there, the C library is built and tried for it, too.
#
#   checks/install.sh
#
# It needs php-dev, make and a C compiler; for the rest php-pear, composer, pkg-config, gcc-aarch64-linux-gnu and
# qemu-user, and says what it skips. It looks at what is committed.
# Functions are called by their names.
# shellcheck disable=SC2016,SC2317
set -u -o pipefail
case "$# ${1:-}" in
    '0 ') ;;
    '1 -h' | '1 --help') sed -n '2,/^# Functions/{/^# Functions/d;/SPDX/d;/^#/s/^# \{0,1\}//p}' "$0" && exit ;;
    *) echo 'usage: checks/install.sh' >&2 && exit 1 ;;
esac
top=$(cd "$(dirname "${BASH_SOURCE[0]}")/.." && pwd)
scratch=$(mktemp -d) || exit 1
trap 'rm -rf "$scratch"' EXIT
export PATH=/usr/sbin:/usr/bin:/sbin:/bin NO_INTERACTION=1 COMPOSER_ALLOW_SUPERUSER=1
failed=0

# Runs a function in the clone, and prints whether it went well, and the seconds: try WHAT FUNCTION
try() {
    local begun status
    begun=$(date +%s%N)
    (
        set -e
        [ ! -d "$scratch/clone" ] || cd "$scratch/clone"
        "$2"
    ) >"$scratch/log" 2>&1
    status=$?
    printf '%-52s %s  %5.1f s\n' "$1" "$([ "$status" = 0 ] && echo ok || echo FAILED)" \
        "$(awk -v n="$begun" -v m="$(date +%s%N)" 'BEGIN { print (m - n) / 1e9 }')"
    if [ "$status" != 0 ]; then
        tail -n 25 "$scratch/log" | sed 's/^/    /'
        failed=1
    fi
}
has() {
    local tool
    for tool; do command -v "$tool" >/dev/null || { echo "skipped: no $tool" && return 1; }; done
}
# The lines of a page that begin with four spaces and have a text.
shown() { sed -n "s/^    \(.*$2.*\)/\1/p" "$1"; }

no_kit() { ! command -v rt; }
clone() { git clone -q "$top" "$scratch/clone"; }
build() { php/ext/build.sh; }
answer() { [ "$(eval "$(shown README.md 'apcu_inc')")" = 6 ]; }
by_php() { cd php/ext && phpize && ./configure && make -j2; }
tests() { cd php/ext && make test TESTS='-q -j2 --show-diff tests' && [ -z "$(git status --short)" ]; }
installed() {
    make -C php/ext install INSTALL_ROOT="$scratch/root"
    [ -f "$scratch/root$(php-config --extension-dir)/apcu.so" ]
    [ -f "$scratch/root$(php-config --include-dir)/ext/apcu/apc_serializer.h" ]
    [ "$(nm -D --defined-only "$scratch/root$(php-config --extension-dir)/apcu.so" | awk '{ print $3 }')" = get_module ]
}
other_processor() {
    cd php/ext
    if ./configure --host=riscv64-linux-gnu >"$scratch/said" 2>&1; then return 1; fi
    grep 'error: there is none for the processor riscv64' "$scratch/said"
}
pecl_package() {
    php/ext/stage.sh "$scratch/stage"
    cd "$scratch/stage"
    pecl package
    tar -tzf yilumbaso-*.tgz | grep 'capi/engine/cache_c.aarch64.s'
    mkdir "$scratch/tarball" && tar -C "$scratch/tarball" -xzf yilumbaso-*.tgz
    cd "$scratch"/tarball/yilumbaso-*
    phpize && ./configure && make -j2 && [ -f modules/apcu.so ]
}
# An older Composer doesn't know PIE's part.
composer_json() {
    composer validate --strict --no-interaction && return
    mkdir "$scratch/composer"
    php -r '$all = json_decode(file_get_contents("composer.json"), true, 9, JSON_THROW_ON_ERROR); unset($all["php-ext"]);
        file_put_contents($argv[1], json_encode($all, JSON_PRETTY_PRINT | JSON_UNESCAPED_SLASHES));' "$scratch/composer/composer.json"
    cd "$scratch/composer" && composer validate --strict --no-interaction
}
write_c() {
    cat >"$1" <<'END'
#include "shared_cache.h"
#include <stdio.h>
#include <string.h>

int main(void) {
    cache_shape shape = {.words = 1 << 20, .slots = 1024, .ttl = 0, .segments = 1};
    if (shared_start(&shape) != CACHE_MADE)
        return 1;
    uint8_t *cache = shared_enter();
    const uint8_t *key = (const uint8_t *)"n";
    cache_request add = {.kind = CACHE_COUNT, .number = 6};
    cache_ask(cache, &add, key, 1, NULL, 0);
    cache_request fetch = {.kind = CACHE_LOOK};
    printf("%d %s\n", (int)cache_ask(cache, &fetch, key, 1, NULL, 0).number, cache_c_version());
    shared_leave();
    return strcmp(cache_c_version(), CACHE_C_VERSION);
}
END
}
by_line() {
    write_c mine.c
    eval "$(shown capi/README.md 'cc -Icapi mine') -o $scratch/mine" && [ "$("$scratch/mine")" = "6 $(version)" ]
}
# The program that the page shows: parent and child print what either stored.
by_example() {
    sed -n '/^    #include "shared_cache/,/^    }$/s/^    //p' capi/README.md >mine.c
    eval "$(shown capi/README.md 'cc -Icapi mine') -o $scratch/example" && [ "$("$scratch/example")" = $'hello\nhello' ]
}
version() { sed -n 's/^#define CACHE_C_VERSION "\(.*\)"$/\1/p' capi/cache_c.h; }
by_pkg_config() {
    local version
    version=$(version)
    make -C capi install PREFIX="$scratch/prefix"
    export PKG_CONFIG_PATH=$scratch/prefix/lib/pkgconfig
    mkdir "$scratch/other" && write_c "$scratch/other/mine.c"
    eval "cd $scratch/other && $(shown capi/README.md 'pkg-config --cflags') -o mine" && [ "$("$scratch/other/mine")" = "6 $version" ]
    [ "$(pkg-config --modversion cache_c)" = "$version" ]
}
aarch64() {
    local status=0
    make -C capi clean && make -C capi CC=aarch64-linux-gnu-gcc AR=aarch64-linux-gnu-ar
    aarch64-linux-gnu-gcc -std=c11 -O2 -Icapi capi/test.c capi/libcache_c.a -lpthread -o "$scratch/test.aarch64"
    qemu-aarch64 -L /usr/aarch64-linux-gnu "$scratch/test.aarch64" >"$scratch/aarch64" || status=$?
    cat "$scratch/aarch64"
    # The emulator keeps no limit of the address space, for which two ask.
    grep -qE '^[0-9]{3,} passed, [0-2] failed$' "$scratch/aarch64"
    make -C capi clean
}
versions() {
    local version
    version=$(version)
    [ "$(./apcu_run --version)" = "apcu_run $version" ]
    grep -q "^## $version " CHANGELOG.md
    grep -q "<release>$version</release>" php/ext/package.xml.in
    head -n 1 php/ext/debian/changelog | grep -F "($version)"
    php -n -d extension=php/ext/modules/apcu.so --ri apcu | grep -x "Cache Version => $version"
}

has php phpize make cc git || exit 1
try 'no rt on the path' no_kit || exit
clone || exit 1
try 'php/ext/build.sh' build
try "README's third line prints 6" answer
try 'versions are the same' versions
try 'php/ext: phpize, configure, make' by_php
try 'php/ext: make test' tests
grep -E '^Tests (passed|failed|skipped)' "$scratch/log" | sed 's/^/    /'
try 'php/ext: make install' installed
try 'configure refuses another processor' other_processor
if has pecl; then try 'pecl package, and a build of it' pecl_package; fi
if has composer; then try 'composer.json' composer_json; fi
try 'C in one line' by_line
try "capi/README's program prints hello twice" by_example
if has pkg-config; then try 'C by make install and pkg-config' by_pkg_config; fi
if has aarch64-linux-gnu-gcc qemu-aarch64; then
    try 'C for aarch64, under an emulator' aarch64
    sed 's/^/    /' "$scratch/aarch64"
fi
exit "$failed"
