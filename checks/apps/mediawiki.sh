#!/usr/bin/env bash
# SPDX-License-Identifier: MIT
# MediaWiki of Debian over the extension and over PHP's APCu: the pages of both are compared, and the record of the
# extension is judged. Nothing is installed: the package is unpacked in a scratch folder, its database is SQLite, and PHP's
# own server runs it.
#
#   checks/apps/mediawiki.sh [SO [REPLAY]]
#
# SO is the extension (php/ext/modules/apcu.so), REPLAY the program apcu_replay (capi/apcu_replay). In the environment
# COMPARED is how many pages one client asks of both at least (200; 0: none), REQUESTS how many four clients make while
# calls are recorded (2000), PORT the first port (8141), PACKAGES a folder that has the two packages already. Times and
# tokens are left out of the comparison; what else differs is shown, and is no fault. COST=ROUNDS compares nothing and
# judges nothing, but prints the processor time of a request with kept values (apc.kept_size), without them and over APCu,
# the least of the rounds. It needs php-apcu php-sqlite3 php-intl php-mbstring php-xml php-dev python3.
set -eu
top=$(cd "$(dirname "${BASH_SOURCE[0]}")/../.." && pwd)
so=$(realpath -- "${1:-$top/php/ext/modules/apcu.so}")
replay=$(realpath -- "${2:-$top/capi/apcu_replay}")
compared=${COMPARED:-200} requests=${REQUESTS:-2000} port=${PORT:-8141}
scratch=$(mktemp -d)
server=
status=0

clean_up() {
    [ -z "$server" ] || kill -- "-$server" 2>/dev/null || true
    rm -rf "$scratch"
}
trap clean_up EXIT

unpack() {
    local file
    mkdir "$scratch/packages" "$scratch/data" "$scratch/ini"
    if [ -n "${PACKAGES:-}" ]; then
        cp "$PACKAGES"/mediawiki*.deb "$scratch/packages/"
    else
        (cd "$scratch/packages" && apt-get -q download mediawiki mediawiki-classes >log 2>&1) ||
            { cat "$scratch/packages/log" >&2; exit 1; }
    fi
    for file in "$scratch"/packages/*.deb; do dpkg-deb -x "$file" "$scratch/packages/unpacked"; done
    wiki=$scratch/packages/unpacked/usr/share/mediawiki
    # These are links to folders of the system.
    (cd "$wiki" && rm -f LocalSettings.php config extensions images && cp -r extensions-core extensions && mkdir images config)
    for file in "$(php-config --ini-dir)"/*.ini; do
        grep -Eq '^ *extension *= *"?apcu' "$file" || ln -s "$file" "$scratch/ini/"
    done
}

install_wiki() {
    (cd "$wiki" && php -d memory_limit=512M maintenance/install.php --dbtype sqlite --dbpath "$scratch/data" --dbname wiki \
        --server "http://127.0.0.1:$port" --scriptpath '' --pass 'Passw0rd.long.1' --confpath "$wiki" Wiki Admin) \
        >"$scratch/install.log" 2>&1 || { tail -n 20 "$scratch/install.log" >&2; exit 1; }
    sed -i -E -e '/^\$wg(Server|MainCacheType) *=/d' \
        -e 's/^\$wgSQLiteDataDir *=.*/$wgSQLiteDataDir = getenv("WIKI_DATA");/' "$wiki/LocalSettings.php"
    cat >>"$wiki/LocalSettings.php" <<'END'
$wgServer = 'http://' . ($_SERVER['HTTP_HOST'] ?? 'localhost');
$wgMainCacheType = $wgSessionCacheType = $wgParserCacheType = $wgMessageCacheType = CACHE_ACCEL;
END
}

# Starts a server of some processes over an extension, with a copy of the wiki's data: serve SO PROCESSES SETTING..
serve() {
    local extension=$1 processes=$2
    shift 2
    rm -rf "$scratch/data.used"
    cp -r "$scratch/data" "$scratch/data.used"
    echo "extension=$extension" >"$scratch/ini/20-cache.ini"
    set -m
    env WIKI_DATA="$scratch/data.used" PHP_CLI_SERVER_WORKERS="$processes" PHP_INI_SCAN_DIR="$scratch/ini" php \
        -d opcache.enable_cli=1 -d opcache.memory_consumption=256 -d apc.enable_cli=1 -d apc.shm_size=64M "$@" \
        -S "127.0.0.1:$port" -t "$wiki" >"$scratch/server.log" 2>&1 &
    server=$!
    set +m
    sleep 3
}

stop() {
    kill -- "-$server"
    wait "$server" 2>/dev/null || true
    server=
    port=$((port + 1))
}

drive() { python3 "$top/checks/apps/mediawiki.py" "http://127.0.0.1:$port" "$@" || status=1; }

# Some texts are hashes of the address, so both servers have the same one. Of a page that is one long line the parts are
# compared.
compare() {
    local side first=$port
    for side in apcu ours; do
        port=$first
        mkdir "$scratch/$side"
        if [ "$side" = ours ]; then serve "$so" 1; else serve "$(php-config --extension-dir)/apcu.so" 1; fi
        drive "$scratch/$side" "$compared" 1
        stop
        sed -i -e 's/127\.0\.0\.1\(:\|%3A\)[0-9]*/HOST/g' -e 's/[],;>]/&\n/g' "$scratch/$side"/*.html
    done
    diff -rq "$scratch/apcu" "$scratch/ours" >"$scratch/different" || true
    echo "$(find "$scratch/ours" -name '*.html' | wc -l) pages, of which $(wc -l <"$scratch/different") differ"
    diff -r "$scratch/apcu" "$scratch/ours" | head -n 20 | cut -c 1-300 || true
}

# Runs a command, and prints what it took, with the memory of its largest process; its status is the command's.
measured() {
    python3 -c '
import resource, subprocess, sys, time
began = time.monotonic()
status = subprocess.run(sys.argv[1:]).returncode
used = resource.getrusage(resource.RUSAGE_CHILDREN)
print(f"{time.monotonic() - began:.2f} seconds by the clock, {used.ru_utime + used.ru_stime:.2f} of the processor, "
      f"{used.ru_maxrss / 1024:.0f} MB of memory")
sys.exit(status)' "$@"
}

record() {
    local got=0
    serve "$so" 4 -d apc.record_dir="$scratch/record" -d apc.record_size=4G
    drive - "$requests" 4
    stop
    find "$scratch/record" -name '*.record' -printf 'a record of %s bytes\n'
    measured php "$top/php/judge.php" --replay "$replay" "$scratch/record" || got=$?
    [ "$got" = 0 ] || { echo "the verdict's status is $got" >&2; status=1; }
}

# The least processor time of a request of one process, by the side: kept values, ours without them, APCu.
cost() {
    local round side before requests=400
    for ((round = 0; round < $1; round++)); do
        for side in kept ours apcu; do
            case $side in
                kept) serve "$so" 1 -d apc.kept_size=16M ;;
                ours) serve "$so" 1 ;;
                apcu) serve "$(php-config --extension-dir)/apcu.so" 1 ;;
            esac
            before=$(awk '{ print $14 + $15 }' "/proc/$server/stat")
            drive - "$requests" 1 >"$scratch/driven"
            awk -v side="$side" -v before="$before" -v requests="$requests" -v ticks="$(getconf CLK_TCK)" \
                '{ printf "%s %.2f\n", side, 1000 * ($14 + $15 - before) / ticks / requests }' "/proc/$server/stat"
            stop
        done
    done | tee "$scratch/costs" >&2
    sort -k 1,1 -k 2,2n "$scratch/costs" | awk '!($1 in seen) { seen[$1]; print $1 ": " $2 " ms of processor time a request" }'
}

unpack
install_wiki
if [ -n "${COST:-}" ]; then
    cost "$COST"
    exit "$status"
fi
[ "$compared" = 0 ] || compare
record
exit "$status"
