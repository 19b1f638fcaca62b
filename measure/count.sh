#!/usr/bin/env bash
# measure/count.sh MODE 'PLAN NUMBER..' PROGRAM WORD..: the instructions of one dispatch of a plan of measure/plan.sh by a program that
# reads scripts: what 110 dispatches cost more than 10, divided by 100.
set -euo pipefail
plan=$(dirname "${BASH_SOURCE[0]}")/plan.sh
mode=$1 script=$2
shift 2

spent() {
    "$plan" "$1" "$mode" $script | valgrind --tool=callgrind --callgrind-out-file=/dev/null "${@:2}" 2>&1 >/dev/null |
        awk '/Collected/ { print $4; told = 1 } END { if (!told) { print "count: nothing was counted" >"/dev/stderr"; exit 1 } }'
}
few=$(spent 10 "$@")
many=$(spent 110 "$@")
echo $(((many - few) / 100))
