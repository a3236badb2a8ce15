#!/usr/bin/env bash
# Times how long `swevo` takes over sources of 256 KiB, 512 KiB and 1 MiB with tokens and comments of all
# kinds. A source is cut into tokens whole before it is read, and its first token begins nothing in a
# library, so nearly all of the time is that of the lexer. Each time is the least of five runs.
. "$(dirname -- "$(readlink -f -- "${BASH_SOURCE[0]}")")/common.sh"

# Writes a source of so many bytes: as many whole lines as fit, and then spaces.
write_source() {
    awk -v bytes="$1" 'BEGIN {
        lines[0] = "let total_%d = (1_000 + 0x1F_FF &* 0b10_01 - 0o777) %% 7 // a comment, \"open\" /* and more"
        lines[1] = "/* a /* nested */ comment, %d */ print(\"text \\\\ \\u{1F600} \\n \\\"quoted\\\"\", x != y && a <= b)"
        lines[2] = "@inlinable public func name_%d(_ x: Int) -> Int { return x; }"
        lines[3] = "if a === b || !c { total -= 1 } else { d %%= 2 }; #e:f.g, %d"
        while (1) {
            line = sprintf(lines[n % 4] "\n", n)
            if (written + length(line) > bytes) break
            printf "%s", line
            written += length(line)
            n++
        }
        while (written++ < bytes) printf " "
    }' >source.swift
    [[ "$(wc -c <source.swift)" == "$1" ]]
}

run() {
    time_of "$swevo" evolve Lib source.swift source.swift source.swift 1
    [[ "$(cat status)" == 4 && "$(cat told)" == "source.swift:1:1: not in the grammar" ]]
}

least_time() {
    write_source "$1"
    least_of 5 run
}

small="$(least_time 262144)"
middle="$(least_time 524288)"
large="$(least_time 1048576)"
awk -v small="$small" -v middle="$middle" -v large="$large" 'BEGIN {
    printf "256 KiB: %.3f s\n512 KiB: %.3f s\n1 MiB: %.3f s\n", small / 1000000, middle / 1000000, large / 1000000
    printf "growth for twice the text: %.2f and %.2f times\n", middle / small, large / middle
}'
