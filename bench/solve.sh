#!/usr/bin/env bash
# Times the solver on a signature at the limits: 4 parameters, 64 requirements, of which half are equations of paths with
# 4 names, and 101 protocols that each inherit all those behind them, with an associated type of their own. The questions
# are what stands for a path of 4 names, and the path to the last protocol of it. Each time is the least of five runs of
# `evo_solve_cases`, less that of a run with no question. Run `rt run` in crates/evo_solve_cases before.
set -eu
root="$(dirname -- "$(dirname -- "$(readlink -f -- "${BASH_SOURCE[0]}")")")"
program="$root/crates/evo_solve_cases/out/evo_solve_cases"
folder="$(mktemp -d)"
trap 'rm -rf -- "$folder"' EXIT
cd -- "$folder"

write_setting() {
    awk 'BEGIN {
        printf "protocols"
        for (i = 0; i <= 100; i++) {
            printf "%s P%d", i ? ";" : "", i
            for (j = i + 1; j <= 100; j++) printf " P%d", j
            printf " A:P%d", (i + 1) % 101
        }
        printf "\nconformances Int:P0\nwhere"
        split("T U V W", parameter, " ")
        split("A B C D E F G H", name, " ")
        for (i = 0; i < 32; i++) printf " %s%s:P%d", parameter[i % 4 + 1], i < 4 ? "" : "." name[i % 8 + 1], i % 3
        for (i = 0; i < 32; i++) printf " %s.A.%s.%s.%s==%s.A.%s.%s.B", parameter[i % 4 + 1], name[i % 8 + 1], name[int(i / 8) + 1], name[(i * 3) % 8 + 1], parameter[(i + 1) % 4 + 1], name[(i + 1) % 8 + 1], name[int(i / 4) % 8 + 1]
        printf "\n"
    }' >signatures.txt
}

run() {
    local start="${EPOCHREALTIME/[.,]/}"
    timeout 120 "$program" >printed || true
    local end="${EPOCHREALTIME/[.,]/}"
    echo $((end - start))
}

least() {
    local least="" time turn
    for turn in 1 2 3 4 5; do
        time="$(run)"
        if [[ -z "$least" || "$time" -lt "$least" ]]; then least="$time"; fi
    done
    echo "$least"
}

question() {
    write_setting
    printf '%s\n' "$2" >>signatures.txt
    awk -v what="$1" -v time="$(least)" 'BEGIN { printf "%s: %.3f s\n", what, time / 1000000 }'
    tail -n 2 printed
}

question "no question" ""
question "what stands for T.A.A.A.A" "T.A.A.A.A -> "
question "the path of T.A.A.A.A to P100" "T.A.A.A.A:P100 -> "
question "the path of T.A.A.A.A to none" "T.A.A.A.A:Z -> "
