# SPDX-License-Identifier: MIT
# What scripts take, ours and PHP's calls; run.sh and goals.sh read this file. They set `scratch`, a folder of their
# own, and read quiet.sh before.
. "$(dirname "${BASH_SOURCE[0]}")/scripts.sh"

# Microseconds of a program on a script.
script_took() {
    local begin
    begin=$(now)
    "$1" <"$2" >/dev/null
    echo $((($(now) - begin) / 1000))
}

# Those of a program on "$scratch/script", and on "$scratch/idle", which does the same except for what is measured.
both_took() {
    echo "$(script_took "$1" "$scratch/script") $(script_took "$1" "$scratch/idle")"
}

# Microseconds of PHP's loop: its kind, the workers, the calls of each, and for texts their bytes and stores.
played_php() {
    php -d apc.enable_cli=1 -d apc.shm_size=32M "$(dirname "${BASH_SOURCE[0]}")/apcu.php" \
        "$1" "$2" "$3" "${4:-0}" "${5:-0}"
}
