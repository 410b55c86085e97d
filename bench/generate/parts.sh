# SPDX-License-Identifier: MIT
# What a generated run takes, ours and PHP's; run.sh and goals.sh read this file. They set `scratch`, a folder of their
# own, and read quiet.sh before.
generated_seed=7

# Nanoseconds of a program with this many workers of this many calls; its summary is in "$scratch/summary".
generated_took() {
    local begin
    begin=$(now)
    "$1" --generate "$generated_seed" --workers "$2" --calls "$3" >"$scratch/summary"
    echo $(($(now) - begin))
}

# Nanoseconds a call of a run, and what of them a run of no calls takes.
generated_run() {
    local none some
    none=$(generated_took "$1" "$2" 0)
    some=$(generated_took "$1" "$2" "$3")
    awk -v none="$none" -v some="$some" -v n=$(($2 * $3)) 'BEGIN { printf "%.1f %.1f\n", some / n, none / n }'
}

# Nanoseconds a call of PHP's loop; its counters are in "$scratch/php".
generated_php() {
    php -d apc.enable_cli=1 -d apc.shm_size=32M -d apc.use_request_time=0 \
        "$(dirname "${BASH_SOURCE[0]}")/apcu.php" "$generated_seed" "$1" "$2" >"$scratch/php"
    tail -n 1 "$scratch/php"
}

# Ends the script if the last run and PHP's last loop counted differently.
check_counters() {
    grep '^counter' "$scratch/summary" >"$scratch/ours"
    grep '^counter' "$scratch/php" | cmp -s - "$scratch/ours" || { echo "$1: PHP counted otherwise" >&2; exit 1; }
}
