# SPDX-License-Identifier: MIT
# What the scripts of this folder share. A script sets `here`, its folder, before it reads this file. The extension
# under test is the first argument of each, or APCU_SO in the environment, or what ../build.sh left; APCU_BASE is
# PHP's APCu to compare with, by default the one that PHP loads.
ours=$(realpath -- "${1:-${APCU_SO:-$here/../modules/apcu.so}}")
base=$(realpath -- "${APCU_BASE:-$(php-config --extension-dir)/apcu.so}")
scratch=$(mktemp -d)
# Processes that a script started and that its end has to stop.
started=()

clean_up() {
    local id
    for id in "${started[@]}"; do kill -- "$id" 2>/dev/null || true; done
    wait
    [ -n "${KEEP:-}" ] || rm -rf "$scratch"
}
trap clean_up EXIT

for file in "$ours" "$base"; do
    [ -f "$file" ] || { echo "no extension: $file" >&2; exit 1; }
done
if cmp -s "$ours" "$base"; then echo "This is PHP's APCu compared with itself."; fi

# Makes the folder of settings that PHP reads for an extension instead of its APCu, and prints its name; for a
# program of PHP's: cli or fpm.
settings_of() {
    local so=$1 sapi=${2:-cli} folder file
    folder="$scratch/settings.$sapi.$(cksum <<<"$so" | cut -d ' ' -f 1)"
    if [ ! -d "$folder" ]; then
        mkdir "$folder"
        for file in "$(php-config --ini-dir | sed "s,/cli/,/$sapi/,")"/*.ini; do
            grep -Eq '^ *extension *= *"?apcu' "$file" || ln -s "$file" "$folder/"
        done
        echo "extension=$so" >"$folder/20-cache.ini"
    fi
    echo "$folder"
}

# Runs PHP with an extension: php_with SO ARGUMENT..
php_with() {
    local so=$1
    shift
    PHP_INI_SCAN_DIR=$(settings_of "$so") php -d apc.enable_cli=1 -d apc.use_request_time=0 "$@"
}

# Prints the folder of APCu's own source, of the Debian package, which is fetched into the scratch folder; or SOURCE.
source_of_apcu() {
    if [ -n "${SOURCE:-}" ]; then echo "$SOURCE"; else source_of php-apcu 'apcu-*'; fi
}

# Prints the newest folder with such a name in the source of a Debian package, which is fetched into the scratch folder:
# source_of PACKAGE NAME. The source is fetched from the system's package sources; only the lists that this
# needs are read, none of the system's are changed. If the newest version has no source there, an older one is taken.
source_of() {
    local package=$1 name=$2 folder="$scratch/source" options file version
    mkdir -p "$folder"/{lists,cache/archives,parts}/partial
    for file in /etc/apt/sources.list /etc/apt/sources.list.d/*.list; do
        [ -f "$file" ] && sed -n 's/^ *deb /deb-src /p' "$file" >"$folder/parts/$(basename "$file" .list).list"
    done
    for file in /etc/apt/sources.list.d/*.sources; do
        [ -f "$file" ] && sed 's/^Types:.*/Types: deb-src/' "$file" >"$folder/parts/$(basename "$file")"
    done
    options=(-q -o Dir::Etc::sourcelist=/dev/null -o Dir::Etc::sourceparts="$folder/parts" -o APT::Sandbox::User=root
        -o Dir::State::lists="$folder/lists" -o Dir::Cache="$folder/cache" -o Debug::NoLocking=1)
    (
        cd "$folder"
        apt-get "${options[@]}" update
        for version in $(apt-cache "${options[@]}" showsrc "$package" | sed -n 's/^Version: //p' | sort -rV); do
            apt-get "${options[@]}" --download-only source "$package=$version" && break
        done
        tar -xJf "$package"_*.orig.tar.xz
    ) >"$folder/log" 2>&1 || { cat "$folder/log" >&2; return 1; }
    # The package of APCu has the version for old PHP, too.
    find "$folder" -maxdepth 1 -type d -name "$name" | sort -V | tail -n 1
}
