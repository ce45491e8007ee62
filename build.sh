#!/usr/bin/env bash
# Proves the crates that the program stands on, as many side by side as there are processors, builds the program, and
# leaves it at bin/crgc.
set -eu
cd "$(dirname "$0")"
program=crgc_main
processors=$(nproc)
logs=$(mktemp -d)
trap 'rm -rf "$logs"' EXIT

# the libraries that each crate uses, by crates.txt
declare -A uses
while IFS=: read -r crate libraries; do
    uses[${crate%% *}]=$libraries
done < <(sed -e 's/#.*//' -e '/^[[:space:]]*$/d' crates.txt)

# what the program stands on: each such crate waits, runs, or is proved
declare -A state
stand_on() {
    local library
    for library in ${uses[$1]}; do
        if [ "${uses[$library]+listed}" ] && [ -z "${state[$library]:-}" ]; then
            state[$library]=waits
            stand_on "$library"
        fi
    done
}
stand_on "$program"
left=$((${#state[@]} + 1))
running=0

is_ready() {
    local library
    for library in ${uses[$1]}; do
        [ "${state[$library]:-proved}" = proved ] || return 1
    done
}

start() {
    echo "$1: proving"
    state[$1]=runs
    running=$((running + 1))
    (
        status=0
        cd "crates/$1" && rt lib > "$logs/$1.log" 2>&1 || status=$?
        echo "$status" > "$logs/$1.status"
    ) &
}

finish() {
    running=$((running - 1))
    if [ "$(cat "$logs/$1.status")" != 0 ]; then
        tail -n 40 "$logs/$1.log" >&2
        echo "$1: not proved" >&2
        wait
        exit 1
    fi
    state[$1]=proved
    left=$((left - 1))
    echo "$1: proved, $left left"
}

while [ "$left" -gt 1 ]; do
    for crate in "${!state[@]}"; do
        if [ "${state[$crate]}" = waits ] && [ "$running" -lt "$processors" ] && is_ready "$crate"; then
            start "$crate"
        fi
    done
    wait -n || true
    for crate in "${!state[@]}"; do
        if [ "${state[$crate]}" = runs ] && [ -s "$logs/$crate.status" ]; then
            finish "$crate"
        fi
    done
done

echo "$program: proving and building"
(cd "crates/$program" && rt run -- play < ../../examples/one-node.journal > /dev/null)
mkdir -p bin
cp "crates/$program/out/$program" bin/crgc
echo "$PWD/bin/crgc"
