#!/usr/bin/env bash
# measure/comparison/threads.sh plans|curve: the microseconds of a dispatch on threads, by the clock: what twice so many dispatches take
# longer than so many, the least of seven runs of each, the programs in turn. They have to be built, `comparison` with
# `cargo build --release --features parallel`.
# - plans: of each of these scripts of measure/plan.sh a line: by shredrun, by shredkept, by the original.
# - curve: of four systems beside each other that wait for so many pauses of the processor a line: the pauses; by shredmeasure
#   in sequence, on threads that are started, on workers that are kept; by the original. measure/comparison/curve.sh draws it.
set -euo pipefail
cd "$(dirname "${BASH_SOURCE[0]}")/../.."
room=$(mktemp -d)
trap 'rm -rf "$room"' EXIT
original=measure/comparison/target/release/comparison

# spent COMMAND..: the microseconds that it takes on this input.
spent() {
    local from=$EPOCHREALTIME to
    "$@" <"$room/input" >/dev/null
    to=$EPOCHREALTIME
    echo $((${to/./} - ${from/./}))
}

# run_script COMMAND TIMES: those of the plan, dispatched so often.
run_script() {
    measure/plan.sh "$2" par $plan >"$room/input"
    spent $1
}

# wait_for MODE TIMES: those of the waiting systems, dispatched so often.
wait_for() {
    echo "$1 4 $2 $pauses" >"$room/input"
    if [ "$1" = original ]; then
        spent "$original" waiting 4 "$2" "$pauses"
    else
        spent crates/shredmeasure/out/shredmeasure
    fi
}

# in_turn FUNCTION WAY..: the microseconds of a dispatch in each way, where the function runs one so often as it is told.
in_turn() {
    local function=$1 way round took
    local -A times one two
    shift
    for way in "$@"; do
        took=$("$function" "$way" 1000)
        times[$way]=$((100000000 / took + 100))
        one[$way]=$((1 << 60)) two[$way]=$((1 << 60))
    done
    for round in 1 2 3 4 5 6 7; do
        for way in "$@"; do
            took=$("$function" "$way" "${times[$way]}")
            one[$way]=$((took < one[$way] ? took : one[$way]))
            took=$("$function" "$way" $((2 * times[$way])))
            two[$way]=$((took < two[$way] ? took : two[$way]))
        done
    done
    for way in "$@"; do
        awk -v more=$((two[$way] - one[$way])) -v times="${times[$way]}" 'BEGIN { printf " %.2f", more / times }'
    done
    echo
}

case ${1-} in
plans)
    for plan in 'beside 3 1' 'beside 64 1' 'beside 64 40' 'mixed 200 1' 'batch 3 10' 'batch 64 10'; do
        echo -n "$plan:"
        in_turn run_script crates/shredrun/out/shredrun crates/shredkept/out/shredkept "$original once"
    done
    ;;
curve)
    for pauses in 0 30 100 200 300 600 1000 3000 10000 30000; do
        echo -n "$pauses"
        in_turn wait_for seq par kept original
    done
    ;;
*)
    echo "usage: measure/comparison/threads.sh plans|curve" >&2
    exit 2
    ;;
esac
