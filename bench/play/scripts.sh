# SPDX-License-Identifier: MIT
# Scripts whose calls are counted by the second or judged; programs of bench/ and checks/ read this file.

# Scripts of this many workers with this many calls.
mixed() {
    awk -v workers="$1" -v calls="$2" -v keys="$3" 'BEGIN {
        for (w = 0; w < workers; w++) {
            print "worker"
            for (i = 0; i < calls; i++) {
                key = keys == "apart" ? "k" w "." i % 16 : "k"
                name = "s:" length(key) ":\"" key "\";"
                if (keys == "counter") print "apcu_inc s:1:\"n\";"
                else if (i % 4 == 0) print "apcu_store " name " i:" i ";"
                else if (i % 4 == 2) print "apcu_inc " (keys == "one" ? "s:1:\"n\";" : "s:" length("n" w) ":\"n" w "\";")
                else print "apcu_fetch " name
            }
        }
    }'
}

# As many lines that make no event.
idle() {
    awk -v workers="$1" -v calls="$2" 'BEGIN {
        for (w = 0; w < workers; w++) { print "worker"; for (i = 0; i < calls; i++) print "apcu_enabled" }
    }'
}

# Scripts of workers that fetch a text of this many bytes, which the first call of worker 0 stores; one of this many calls
# (0: none) stores another one of that length: three texts in turn, so that each store changes all of its words.
texts() {
    awk -v workers="$1" -v calls="$2" -v bytes="$3" -v every="$4" '
        function of(letter, text) {
            text = letter
            while (length(text) * 2 <= bytes) text = text text
            return "apcu_store s:1:\"k\"; s:" bytes ":\"" text substr(text, 1, bytes - length(text)) "\";"
        }
        BEGIN {
            store[0] = of("x"); store[1] = of("y"); store[2] = of("z")
            for (w = 0; w < workers; w++) {
                print "worker"
                if (w == 0) print store[2]
                for (i = 0; i < calls; i++) {
                    if (every && i % every == every - 1) print store[n++ % 3]
                    else print "apcu_fetch s:1:\"k\";"
                }
            }
        }'
}

# Writes two scripts of one worker to "$scratch": `script` with this many stores of texts of this many bytes, of which each
# changes all of its words, and `idle` with as many lines that are read and find the row, so that they store nothing.
stores() {
    texts 1 "$1" "$2" 1 >"$scratch/script"
    # The row itself is stored by the second line.
    sed '3,$s/^apcu_store/apcu_add/' "$scratch/script" >"$scratch/idle"
}

# A script of the calls of one worker of a generated run: this many, with the program's own numbers from this seed. Half of
# them fetch a text of 0 to 199 bytes, a quarter stores one, a quarter counts.
generated() {
    php "$(dirname "${BASH_SOURCE[0]}")/../generate/apcu.php" "$1" 1 "$2" script
}
