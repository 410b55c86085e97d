# SPDX-License-Identifier: MIT
# Figures that are kept only if the machine is quiet; scripts of bench/ read this file. A script sets `scratch`, a
# folder of its own, before it measures, and calls `tell_of_quiet` at its end. NOISY=1 in the environment measures
# without this check, which only tests a script, QUIET_SECONDS=N waits at most N seconds in all for a quiet machine, and
# ROUNDS=N measures each figure in N rounds.
shopt -s inherit_errexit

# Rounds of which each figure is the least.
rounds=${ROUNDS:-3}
# What is left of the seconds that a script may lose on a machine that is not quiet.
patience=${QUIET_SECONDS:-300}
# Whether a figure is missing for that.
is_lacking=

# Nanoseconds of the clock.
now() { date +%s%N; }

# Milliseconds by the clock, and of processors, of an empty loop in this many processes at once.
loops() {
    local TIMEFORMAT='%3R %3U' i
    # In a shell of its own, which waits for these loops alone.
    { time (
        for ((i = 0; i < $1; i++)); do awk 'BEGIN { for (i = 0; i < 8000000; i++) ; }' & done
        wait
    ); } 2>&1 | tr -d '.,'
}

# Whether a loop in one process takes little longer than it has its processor, and in this many little longer than in one.
# The first is checked too, since on a full machine a loop of many processes is no slower than one that is slow already.
quiet() {
    local one many own
    read -r one own <<<"$(loops 1)"
    [ $((10#$one * 100)) -le $((10#$own * 125)) ] || return 1
    read -r many own <<<"$(loops "$1")"
    [ $((10#$many * 100)) -le $((10#$one * 125)) ]
}

# Runs a command in this many rounds, before and after which the machine was quiet, with this many processes; the output of
# the rounds is in "$scratch/kept", one after another. If the time runs out first there are fewer rounds, or none.
keep_rounds() {
    local wanted=$1 processes=$2 kept=0 is_quiet= begun
    shift 2
    [ "$processes" -le "$(nproc)" ] || processes=$(nproc)
    : >"$scratch/kept"
    while [ "$kept" -lt "$wanted" ]; do
        begun=$SECONDS
        if [ -n "${NOISY:-}" ]; then
            "$@" >"$scratch/round"
        elif [ -n "$is_quiet" ] || quiet "$processes"; then
            "$@" >"$scratch/round"
            # The check after a round is the one before the next.
            is_quiet=
            if quiet "$processes"; then is_quiet=1; fi
        fi
        if [ -n "${NOISY:-}$is_quiet" ]; then
            cat "$scratch/round" >>"$scratch/kept"
            kept=$((kept + 1))
            continue
        fi
        if [ "$patience" -le 0 ]; then
            is_lacking=1
            break
        fi
        sleep 1
        patience=$((patience - (SECONDS - begun)))
    done
}

# Sets `found` to what a command measures, a line of numbers: the lowest of each place over the rounds, `-` if it
# is `-` in all, and only `-` if no round was quiet.
measured() {
    keep_rounds "$rounds" "$@"
    found=$(awk '
        { for (i = 1; i <= NF; i++) if ($i != "-" && (!(i in least) || $i + 0 < least[i] + 0)) least[i] = $i }
        NF > most { most = NF }
        END { for (i = 1; i <= most; i++) printf "%s%s", (i > 1 ? " " : ""), (i in least ? least[i] : "-") }' \
        "$scratch/kept")
    found=${found:--}
}

# Says at the end what the figures are worth.
tell_of_quiet() {
    if [ -n "${NOISY:-}" ]; then
        echo "No test was made whether the machine is quiet: these are no figures."
    elif [ -n "$is_lacking" ]; then
        echo "In ${QUIET_SECONDS:-300} seconds of waiting the machine was not quiet: - is a figure of no round," \
            "and others can be of fewer rounds."
    else
        echo "The machine was quiet before and after each round."
    fi
}

# Whether PHP has these extensions.
php_has() {
    local extension
    command -v php >/dev/null || return 1
    for extension in "$@"; do php -m | grep -x "$extension" >/dev/null || return 1; done
}
