#!/usr/bin/env bash
# SPDX-License-Identifier: MIT
# APCu's own status page, apc.php of Debian's source package, runs unchanged over an extension: each of its views is
# requested and judged (page.php), and its text, except for numbers, is the same with PHP's APCu. SOURCE=FOLDER in the
# environment is an existing copy of the source; SHOTS=FOLDER takes pictures with Chromium, for a person to look at.
# Usage: php/ext/checks/page.sh [SO]; it needs php-apcu, and php-gd for the page's pictures.
set -eu
here=$(cd "$(dirname "${BASH_SOURCE[0]}")" && pwd)
. "$here/common.sh"
source=$(source_of_apcu)
mkdir "$scratch/site"
cp "$source/apc.php" "$scratch/site/"
# The page's own settings: who may clear.
cat >"$scratch/site/apc.conf.php" <<'END'
<?php
define('USE_AUTHENTICATION', 0);
END
cat >"$scratch/site/fill.php" <<'END'
<?php
apcu_clear_cache();
for ($i = 1; $i <= 20; $i++) {
    apcu_store("user:$i", str_repeat('x', 100 * $i), $i % 3 * 1000);
}
apcu_store('list of things', ['name' => 'somebody', 'tags' => ['a', 'b'], 'price' => 1.5]);
apcu_store('counter', 42);
apcu_store('page: a & b', '<p>text</p>');
apcu_store('double', 2.5);
apcu_store('gone', 1);
apcu_store('object', new ArrayObject([1]));
apcu_delete('gone');
for ($i = 0; $i < 5; $i++) {
    apcu_fetch('counter');
    apcu_fetch('not there');
}
echo 'filled ', apcu_cache_info(true)['num_entries'];
END

# Serves the page over an extension and judges it: judge NAME SO
judge() {
    local name=$1 so=$2 port=0 i id status=0
    port=$(php -n -r '$s = stream_socket_server("tcp://127.0.0.1:0"); echo substr(strrchr(stream_socket_get_name($s, false), ":"), 1);')
    (cd "$scratch/site" && PHP_INI_SCAN_DIR=$(settings_of "$so") exec php -d apc.shm_size=8M -d apc.use_request_time=0 \
        -d display_errors=1 -d error_reporting=-1 -d allow_url_fopen=0 -S "127.0.0.1:$port" -t "$scratch/site" \
        >"$scratch/$name.log" 2>&1) &
    id=$!
    started+=("$id")
    for ((i = 0; i < 100; i++)); do
        if php -n -r 'exit(@fsockopen("127.0.0.1", (int) $argv[1]) ? 0 : 1);' "$port"; then break; fi
        sleep 0.1
    done
    echo "$name:"
    timeout 200 php "$here/page.php" "127.0.0.1:$port" "$scratch/$name.text" >"$scratch/$name.views" || status=1
    grep -v '^good' "$scratch/$name.views" | sed -e 's/^/  /'
    if [ -n "${SHOTS:-}" ] && command -v chromium >/dev/null; then
        mkdir -p "$SHOTS"
        php -n -r 'file_get_contents("http://127.0.0.1:$argv[1]/fill.php"); sleep(2);' "$port"
        for i in 1 2; do
            timeout 60 chromium --headless --no-sandbox --disable-gpu --user-data-dir="$scratch/chromium" --window-size=1100,1300 \
                --screenshot="$SHOTS/$name.$i.png" "http://127.0.0.1:$port/apc.php?OB=$i" >/dev/null 2>&1 || true
        done
    fi
    kill "$id"
    wait "$id" 2>/dev/null || true
    return "$status"
}

status=0
judge APCu "$base" || echo 'over APCu, too, a view is not good'
judge ours "$ours" || status=1
if ! diff "$scratch/APCu.text" "$scratch/ours.text" >"$scratch/differ"; then
    echo 'texts that are other than over APCu:'
    grep '^[<>]' "$scratch/differ" | sort | uniq -c | head -n 20
fi
exit "$status"
