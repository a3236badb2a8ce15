# What the benches share. A bench reads this file; it runs nothing itself.
# It leaves the bench in an empty folder, which is removed at the end.
set -eu
shopt -s inherit_errexit

swevo="$(dirname -- "$(dirname -- "$(readlink -f -- "${BASH_SOURCE[0]}")")")/bin/swevo"
# Only the proved program is measured. Where it does not stand, bin/swevo says so and the bench ends.
export SWEVO_PROVED=1
folder="$(mktemp -d)"
trap 'rm -rf -- "$folder"' EXIT
cd -- "$folder"

# Runs a command, which leaves its status in the file `status`, and prints its time in microseconds.
# A run that takes longer than 120 seconds is an error.
time_of() {
    local start="${EPOCHREALTIME/[.,]/}"
    { timeout 120 "$@" >printed 2>told && echo 0 || echo $?; } >status
    local end="${EPOCHREALTIME/[.,]/}"
    echo $((end - start))
}

# Prints the least time that a function prints in so many turns.
least_of() {
    local least time turn
    for ((turn = 1; turn <= $1; turn++)); do
        time="$("$2")"
        if [[ "$turn" == 1 || "$time" -lt "$least" ]]; then least="$time"; fi
    done
    echo "$least"
}
