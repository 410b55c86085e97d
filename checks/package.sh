#!/usr/bin/env bash
# SPDX-License-Identifier: MIT
# Tries the Debian package of the extension: dpkg-buildpackage makes it, the same twice, lintian has no error, no page in
# it has a dead link. Then it is installed instead of php-apcu, upgraded, and php-apcu is installed again, each step
# checked. That is done on a copy of this system that is thrown away, an overlay over its files in a namespace of its own.
#
#   checks/package.sh
#
# It needs root, overlays, php-apcu, php-dev, dh-php, debhelper and lintian; apt-get fetches APCu's package again.
set -eu -o pipefail
case "$# ${1:-}" in
    '0 ') ;;
    '1 -h' | '1 --help') sed -n '2,/^set/{/SPDX/d;/^#/s/^# \{0,1\}//p}' "$0" && exit ;;
    *) echo 'usage: checks/package.sh' >&2 && exit 1 ;;
esac
top=$(cd "$(dirname "${BASH_SOURCE[0]}")/.." && pwd)
scratch=$(mktemp -d)
trap 'rm -rf "$scratch"' EXIT
for tool in dpkg-buildpackage dh_php lintian phpize; do
    command -v "$tool" >/dev/null || { echo "package.sh: no $tool: apt-get install dh-php debhelper lintian php-dev" >&2; exit 1; }
done
php=$(php-config --version | cut -d . -f 1,2)
name=php$php-apcu-yilumbaso

# Makes the package in a copy of the files that git has here, and of the program if it was built.
made() {
    local tree=$scratch/$1 program=crates/apcu_run/out/apcu_run
    mkdir "$tree"
    git -C "$top" ls-files -z --cached --others --exclude-standard | grep -zv '^crates/' >"$scratch/names"
    tar -C "$top" --ignore-failed-read --null -T "$scratch/names" -cf - 2>/dev/null | tar -C "$tree" -xf -
    if [ -x "$top/$program" ]; then install -D "$top/$program" "$tree/$program"; fi
    (cd "$tree/php/ext" && DEB_BUILD_OPTIONS="parallel=2 nocheck" dpkg-buildpackage -us -uc -b) >"$tree/log" 2>&1 ||
        { tail -n 40 "$tree/log" >&2; exit 1; }
}

made first
made a-second-one
package=$(echo "$scratch/first/php/$name"_*.deb)
cmp "$package" "$scratch/a-second-one/php/$(basename "$package")"
for file in "$scratch"/first/php/*.deb; do
    case $file in *-dbgsym_*) ;; *) echo "made, twice the same: $(basename "$file"), $(stat -c %s "$file") bytes" ;; esac
done
lintian --fail-on error "$scratch"/first/php/*.changes >"$scratch/lintian" 2>&1 || { cat "$scratch/lintian" >&2; exit 1; }
echo "lintian: no error, $(grep -c '^W:' "$scratch/lintian" || true) warnings"
sed -n 's/^W: /  /p' "$scratch/lintian"

dpkg-deb -x "$package" "$scratch/files"
so=$(find "$scratch/files" -name apcu.so)
[ -f "$(find "$scratch/files" -path "*/ext/apcu/apc_serializer.h")" ] || { echo 'no apc_serializer.h' >&2; exit 1; }
needed=$(objdump -p "$so" | awk '$1 == "NEEDED" { print $2 }' | tr '\n' ' ')
[ "$needed" = 'libc.so.6 ' ] || { echo "apcu.so needs more than the C library: $needed" >&2; exit 1; }
readelf -d "$so" | grep BIND_NOW >/dev/null || { echo 'apcu.so is without BIND_NOW' >&2; exit 1; }
nm -D "$so" | grep '__.*_chk' >/dev/null || { echo 'apcu.so is without _FORTIFY_SOURCE' >&2; exit 1; }
[ "$(nm -D --defined-only "$so" | awk '{ print $3 }')" = get_module ] || { echo 'apcu.so exports more than get_module' >&2; exit 1; }
(cd "$scratch/files/usr/share/doc/$name" && grep -oE '\]\([^):]*\)' ./*.md | sed 's/.*(//;s/)$//' | sort -u | while read -r link; do
    [ -e "$link" ] || { echo "a dead link: $link" >&2; exit 1; }
done)
echo 'in it: the header, only the C library needed, hardened, no dead link'

if [ "$(id -u)" != 0 ] || ! unshare -m true 2>/dev/null || ! grep -q overlay /proc/filesystems; then
    echo 'not installed: that needs root and overlays' >&2
    exit 1
fi
# The same as a later version, for the upgrade.
later=$scratch/later.deb
dpkg-deb -R "$package" "$scratch/later"
sed -i 's/^Version: .*/Version: 1.0.1~later/' "$scratch/later/DEBIAN/control"
dpkg-deb --root-owner-group -b "$scratch/later" "$later" >/dev/null
cat >"$scratch/in" <<'END'
set -eu
first=$1 later=$2 php=$3 name=$4
export DEBIAN_FRONTEND=noninteractive
get() { apt-get -q -y -o APT::Sandbox::User=root "$@" >/tmp/log 2>&1 || { cat /tmp/log; exit 1; }; }
ours() { php --ri apcu | grep '^Cache => Yilumbaso' >/dev/null; }
has() { dpkg-query -W -f '${db:Status-Abbrev} ${Version}' "$1" 2>/dev/null; }
works() { ours && answers && is_on; }
answers() { php -d apc.enable_cli=1 -r 'exit(apcu_store("a", 5) && apcu_inc("a") === 6 ? 0 : 1);'; }
is_on() { local folder; for folder in /etc/php/"$php"/*/conf.d; do [ -e "$folder/20-apcu.ini" ] || return; done; }
state() { echo "$1: $(has "$name" || true)| php$php-apcu $(has "php$php-apcu" || true)"; }

get install php-apcu
if ours; then echo 'php-apcu is not what PHP loads'; exit 1; fi
answers || { echo 'APCu does not answer'; exit 1; }
echo '; apc.ttl of the site' >>/etc/php/"$php"/mods-available/apcu.ini
state 'before'
get install "$first"
works || { echo 'it does not answer'; exit 1; }
grep -q 'of the site' /etc/php/"$php"/mods-available/apcu.ini || { echo 'the settings are not those of before'; exit 1; }
has php-apcu | grep '^ii' >/dev/null || { echo 'php-apcu went, too'; exit 1; }
apt-get check >/dev/null
get -s install php-symfony-cache
state 'installed'
get install "$later"
works || { echo 'it does not answer'; exit 1; }
grep -q 'of the site' /etc/php/"$php"/mods-available/apcu.ini
has "$name" | grep later >/dev/null
state 'upgraded'
get install "php$php-apcu"
if ours; then echo 'the extension is still there'; exit 1; fi
if ! answers || ! is_on; then echo 'APCu does not answer'; exit 1; fi
apt-get check >/dev/null
state 'back'
get install "$first"
works || { echo 'it does not answer'; exit 1; }
state 'installed again'
get purge php-apcu "php$php-apcu" "$name"
if php -m 2>&1 | grep -i apcu; then echo 'PHP still has apcu'; exit 1; fi
[ ! -e /etc/php/"$php"/mods-available/apcu.ini ] || { echo 'the settings are still there'; exit 1; }
state 'purged'
END
# What the overlay writes is in memory.
mkdir "$scratch/overlay"
# shellcheck disable=SC2016
unshare -m bash -eu -c '
    mount --make-rprivate /
    mount -t tmpfs -o size=1G none "$1"
    mkdir "$1"/{upper,work,tree}
    mount -t overlay -o "lowerdir=/,upperdir=$1/upper,workdir=$1/work" none "$1/tree"
    cp "$2" "$3" "$4" "$1/tree/var/tmp/"
    mount -t proc none "$1/tree/proc"
    mount -t tmpfs none "$1/tree/tmp"
    for i in null zero urandom random tty; do
        [ -e "$1/tree/dev/$i" ] || { touch "$1/tree/dev/$i" && mount --bind "/dev/$i" "$1/tree/dev/$i"; }
    done
    chroot "$1/tree" env -i PATH=/usr/sbin:/usr/bin:/sbin:/bin bash "/var/tmp/$(basename "$2")" \
        "/var/tmp/$(basename "$3")" "/var/tmp/$(basename "$4")" "$5" "$6"
' - "$scratch/overlay" "$scratch/in" "$package" "$later" "$php" "$name"
echo 'installed, upgraded, and back'
