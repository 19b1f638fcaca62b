#!/usr/bin/env bash
# measure/time.sh MODE 'PLAN NUMBER..' TIMES PROGRAM WORD..: the microseconds of one dispatch of a plan of measure/plan.sh by a program that
# reads scripts: the processor time that twice so many dispatches take longer than so many, the least of nine runs of each.
set -euo pipefail
plan=$(dirname "${BASH_SOURCE[0]}")/plan.sh
mode=$1 script=$2 times=$3
shift 3
export LC_ALL=C TIMEFORMAT=%U

least() {
    local text=$("$plan" "$1" "$mode" $script)
    "${@:2}" <<<"$text" >/dev/null
    for _ in 1 2 3 4 5 6 7 8 9; do
        { time "${@:2}" <<<"$text" >/dev/null; } 2>&1
    done | sort -n | head -n 1
}
one=$(least "$times" "$@")
two=$(least $((2 * times)) "$@")
awk -v one="$one" -v two="$two" -v times="$times" 'BEGIN { printf "%.2f\n", (two - one) / times * 1000000 }'
