#!/usr/bin/env bash
# Times the machine on a loop of 20 million turns, each of a tick, an addition, a comparison and a jump, against lua5.4 on
# the same loop, and on the same loop with a call of an empty function in each turn. Each time is the least of five runs,
# less that of a run of no turn. Run `rt run` in crates/evo_run_cases before.
set -eu
root="$(dirname -- "$(dirname -- "$(readlink -f -- "${BASH_SOURCE[0]}")")")"
program="$root/crates/evo_run_cases/out/evo_run_cases"
turns=20000000
folder="$(mktemp -d)"
trap 'rm -rf -- "$folder"' EXIT
cd -- "$folder"

# The loop to so many turns, with these instructions before the addition of each turn.
write_case() {
    local ticks="$(($1 * $3 + 2))"
    cat >"$4" <<END
case a loop
main 1,1,1,1: tick; int 0 0; int 1 $1; int 2 1; jump $((7 + $2)); tick; $5add 0 0 2; atleast 3 0 1; unless 3 5; print 0; return 0 0
function f timed - 0 0: tick; return 0 0
ticks $ticks
out $1
end done
END
}

write_case 0 0 1 none.txt ''
write_case "$turns" 0 1 loop.txt ''
write_case "$turns" 1 2 calls.txt 'call f - 0 0; '
cat >none.lua <<'END'
print(0)
END
cat >loop.lua <<END
local i = 0
repeat i = i + 1 until i >= $turns
print(i)
END
cat >calls.lua <<END
local function f() end
local i = 0
repeat f(); i = i + 1 until i >= $turns
print(i)
END

time_of() {
    local start="${EPOCHREALTIME/[.,]/}"
    timeout 120 "$@" >printed
    local end="${EPOCHREALTIME/[.,]/}"
    echo $((end - start))
}

least_of() {
    local least="" time turn
    for turn in 1 2 3 4 5; do
        time="$(time_of "$@")"
        if [[ -z "$least" || "$time" -lt "$least" ]]; then least="$time"; fi
    done
    echo "$least"
}

none="$(least_of "$program" none.txt)"
loop="$(($(least_of "$program" loop.txt) - none))"
calls="$(($(least_of "$program" calls.txt) - none))"
lua_none="$(least_of lua5.4 none.lua)"
lua_loop="$(($(least_of lua5.4 loop.lua) - lua_none))"
lua_calls="$(($(least_of lua5.4 calls.lua) - lua_none))"
awk -v turns="$turns" -v loop="$loop" -v calls="$calls" -v lua_loop="$lua_loop" -v lua_calls="$lua_calls" 'BEGIN {
    printf "a turn: %.1f ns, of lua5.4 %.1f ns\n", loop * 1000 / turns, lua_loop * 1000 / turns
    printf "a call in it: %.1f ns, %.1f times a turn; of lua5.4 %.1f ns\n", (calls - loop) * 1000 / turns, (calls - loop) / loop, (lua_calls - lua_loop) * 1000 / turns
}'
