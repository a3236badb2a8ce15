#!/usr/bin/env bash
# Times how long `swevo` takes to read a client of ordinary code of 256 KiB, 512 KiB and 1 MiB, how much
# memory it takes at most, and whether it reads long flat sources: 100,000 statements or members beside each
# other, 50,000 to 200,000 operands in one chain, 100,000 links behind one name, 60,000 branches of one `if`,
# and 1 MiB of statements or of cases that are as short as can be. Each is read whole, as the answer shows: it
# is in the grammar, and not of the form that is built today. Each time is the least of five runs. A run that
# takes more than 300 MB is an error.
. "$(dirname -- "$(readlink -f -- "${BASH_SOURCE[0]}")")/common.sh"

printf 'public func f() -> Int { return 1 }\n' >lib.swift

# Writes a client of so many bytes: as many whole blocks as fit, and then spaces.
write_ordinary() {
    awk -v bytes="$1" 'BEGIN {
        block = "\n/// An account, number %d.\npublic struct Account%d: Equatable, Comparable {\n" \
            "    public let owner: String\n    var balance: Int\n\n" \
            "    public init(_ owner: String, balance: Int) {\n        self.owner = owner\n        self.balance = balance\n    }\n\n" \
            "    mutating func deposit(_ amount: Int) -> Bool {\n        if amount <= 0 || amount > 1_000_000 {\n            return false\n        } else if self.balance + amount > 0x7FFF_FFFF {\n            return false\n        }\n        self.balance += amount &* 2 - (amount %% 3)\n        return true\n    }\n\n" \
            "    var kind: Kind%d {\n        get {\n            switch self.balance {\n            case 0:\n                return .empty\n            default:\n                return .filled(self.balance, by: self.owner)\n            }\n        }\n    }\n}\n\n" \
            "public enum Kind%d {\n    case empty\n    case filled(Int, by: String), closed\n}\n\n" \
            "func report%d<T: Named & Counted>(on item: T, times count: Int) -> Int where T.Item == Int {\n" \
            "    var left = count\n    while left > 0 && !item.isDone() {\n        print(\"left:\", left, item.name(of: left - 1).first)\n        left -= 1\n        if left == 3 { break }\n    }\n    return left\n}\n\n" \
            "let total%d = report%d(on: Account%d(\"a\", balance: -1), times: 3) + 1\nprint(total%d)\n"
        printf "import Lib\n"
        written = 11
        while (1) {
            text = block
            gsub(/%d/, n, text)
            gsub(/%%/, "%", text)
            if (written + length(text) > bytes) break
            printf "%s", text
            written += length(text)
            n++
        }
        while (written++ < bytes) printf " "
    }' >main.swift
    [[ "$(wc -c <main.swift)" == "$1" ]]
}

# Writes a client of so many repetitions between two texts.
write_repeated() {
    awk -v count="$1" -v first="$2" -v again="$3" -v last="$4" 'BEGIN {
        printf "import Lib\n%s", first
        for (n = 0; n < count; n++) printf "%s", again
        printf "%s\n", last
    }' >main.swift
}

is_read() {
    [[ "$(cat status)" == 4 && "$(cat told)" == "main.swift:1:1: not built yet" ]]
}

run() {
    time_of "$swevo" evolve Lib lib.swift lib.swift main.swift 1
    is_read
}

ordinary() {
    write_ordinary "$1"
    least_of 5 run
}

# Prints the most memory of one run, in KiB.
memory() {
    time_of /usr/bin/time -f %M -o peak -- "$swevo" evolve Lib lib.swift lib.swift main.swift 1 >spent
    is_read
    [[ "$(tail -n 1 peak)" -le 292968 ]]
    tail -n 1 peak
}

repeated() {
    write_repeated "$@"
    memory >>peaks
    least_of 5 run
}

small="$(ordinary 262144)"
middle="$(ordinary 524288)"
large="$(ordinary 1048576)"
peak="$(memory)"
printf 'import Lib\nlet x = 1\n' >main.swift
least="$(memory)"
awk -v small="$small" -v middle="$middle" -v large="$large" -v peak="$peak" -v least="$least" 'BEGIN {
    printf "256 KiB: %.3f s\n512 KiB: %.3f s\n1 MiB: %.3f s\n", small / 1000000, middle / 1000000, large / 1000000
    printf "growth for twice the text: %.2f and %.2f times\n", middle / small, large / middle
    printf "memory: %d KiB at most, %.1f times the text of 1 MiB beside the %d KiB of a small one\n", peak, (peak - least) / 1024, least
}'

statements="$(repeated 100000 '' $'f()\n' '')"
members="$(repeated 100000 'struct S {' $'\nvar a:A' '}')"
fewer="$(repeated 50000 'let x = 0' ' + 1' '')"
operands="$(repeated 100000 'let x = 0' ' + 1' '')"
more="$(repeated 200000 'let x = 0' ' + 1' '')"
links="$(repeated 100000 'x' '.a' '')"
branches="$(repeated 60000 'if a {}' ' else if b {}' '')"
shortest="$(repeated 524282 '' $'a\n' '')"
cases="$(repeated 149790 $'enum E {\n' $'case a\n' '}')"
awk -v statements="$statements" -v members="$members" -v links="$links" -v branches="$branches" -v shortest="$shortest" -v cases="$cases" 'BEGIN {
    printf "100,000 statements: %.3f s\n100,000 members: %.3f s\n", statements / 1000000, members / 1000000
    printf "100,000 links: %.3f s\n60,000 branches: %.3f s\n", links / 1000000, branches / 1000000
    printf "524,282 statements: %.3f s\n149,790 cases: %.3f s\n", shortest / 1000000, cases / 1000000
}'
awk -v fewer="$fewer" -v operands="$operands" -v more="$more" 'BEGIN {
    printf "50,000 operands: %.3f s\n100,000: %.3f s\n200,000: %.3f s\n", fewer / 1000000, operands / 1000000, more / 1000000
    printf "growth for twice the operands: %.2f and %.2f times\n", operands / fewer, more / operands
}'
printf 'memory of the long flat sources: %d KiB at most\n' "$(sort -n peaks | tail -n 1)"
