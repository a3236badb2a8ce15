#!/usr/bin/env bash
# Times `swevo evolve` on libraries of 1,024 and of 4,096 functions, with a client that calls each
# of them once, and checks every line that comes out. It wants the proved program: rt ci leaves it.
# Each time is the least of three runs; a run that takes longer than 120 seconds is an error.
. "$(dirname -- "$(readlink -f -- "${BASH_SOURCE[0]}")")/common.sh"

# The number of the function that the Nth call calls: each number once, in no order of the library.
# The old function I returns I, and the new one 3 * I + 1. Of four functions the first two are
# inlinable: the client keeps the first one's old value, and the second calls the third, which is not
# inlinable and gives its new value.
write_files() {
    awk -v n="$1" 'BEGIN {
        print "import Lib" >"main.swift"
        for (i = 0; i < n; i++) {
            called = (i * 409 + 7) % n
            attribute = i % 4 < 2 ? "@inlinable " : ""
            body = i % 4 == 1 ? sprintf("f%d()", i + 1) : i
            new_body = i % 4 == 1 ? 0 : 3 * i + 1
            printf "%spublic func f%d() -> Int { return %s }\n", attribute, i, body >"old.swift"
            printf "%spublic func f%d() -> Int { return %s }\n", attribute, i, new_body >"new.swift"
            printf "print(f%d())\n", called >"main.swift"
            if (called % 4 == 0) print called >"expected"
            else if (called % 4 == 1) print 3 * (called + 1) + 1 >"expected"
            else print 3 * called + 1 >"expected"
        }
    }'
}

run() {
    time_of "$swevo" evolve Lib old.swift new.swift main.swift 100000
    [[ "$(cat status)" == 0 ]]
    cmp -- printed expected >&2
}

# Prints the least time of three runs with so many functions, in microseconds.
least_time() {
    write_files "$1"
    least_of 3 run
}

printf 'public func f() -> Int { return 1 }\n' >old.swift
printf 'import Lib\nprint(f())\n' >main.swift
[[ "$("$swevo" evolve Lib old.swift old.swift main.swift 2)" == 1 ]]

start="$(least_time 1)"
small="$(least_time 1024)"
large="$(least_time 4096)"
awk -v start="$start" -v small="$small" -v large="$large" 'BEGIN {
    printf "1 function and call: %.3f s, which is mostly the start\n", start / 1000000
    printf "1,024 functions and calls: %.3f s\n", small / 1000000
    printf "4,096 functions and calls: %.3f s\n", large / 1000000
    printf "growth for 4 times the functions and calls: %.1f times, ", large / small
    printf "and %.1f times without the start\n", (large - start) / (small - start)
}'
