# Prints a value in serialize notation, without a line feed: awk -v kind=KIND -v size=SIZE -f texts.awk
# integers: an array of so many integers. strings: so many short strings under string keys. string: one
# string of so many bytes. nested: so many arrays, each of 500 levels.
BEGIN {
    ORS = ""
    if (kind == "integers") {
        print "a:" size ":{"
        for (i = 0; i < size; i++) print "i:" i ";i:" i * 7 ";"
        print "}"
    } else if (kind == "strings") {
        print "a:" size ":{"
        for (i = 0; i < size; i++) printf "s:8:\"k%07d\";s:20:\"value %014d\";", i, i
        print "}"
    } else if (kind == "string") {
        piece = "0123456789abcdef0123456789abcdef0123456789abcdef0123456789abcdef"
        size -= size % 64
        print "s:" size ":\""
        for (i = 0; i < size; i += 64) print piece
        print "\";"
    } else {
        for (i = 0; i < 499; i++) { open = open "a:1:{i:0;"; close_ = close_ "}" }
        print "a:" size ":{"
        for (i = 0; i < size; i++) print "i:" i ";" open "N;" close_
        print "}"
    }
}
