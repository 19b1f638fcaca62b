#!/usr/bin/env bash
# measure/store.sh [count]: what one thing costs that is done to the entity store, over two sorted `Vec`s and over two `BTreeMap`s, as rows
# of a table: the microseconds, by the clock, that twice so many take longer than so many, the least of three runs of each; by `count` the
# instructions, for fewer rows. The first number is of the store. It builds store.rs into a folder of its own; `rt run` in
# crates/storemeasure builds the other program.
set -euo pipefail
cd "$(dirname "${BASH_SOURCE[0]}")"
export LC_ALL=C
case ${1:-} in
'') by=least rows_to_try='1000 100000 1000000' ;;
count) by=counted rows_to_try='1000 10000' ;;
*)
    echo "usage: measure/store.sh [count]" >&2
    exit 2
    ;;
esac
folder=$(mktemp -d)
trap 'rm -rf "$folder"' EXIT
rustc -C opt-level=3 --edition 2021 -o "$folder/store" store.rs
store=../crates/storemeasure/out/storemeasure

# least LINE PROGRAM..: the least time of three runs on the line, in microseconds.
least() {
    local from to
    for _ in 1 2 3; do
        from=$EPOCHREALTIME
        "${@:2}" <<<"$1" >/dev/null
        to=$EPOCHREALTIME
        echo $((${to/./} - ${from/./}))
    done | sort -n | head -n 1
}

# counted LINE PROGRAM..: the instructions of a run on the line.
counted() {
    valgrind --tool=callgrind --callgrind-out-file=/dev/null "${@:2}" <<<"$1" 2>&1 >/dev/null |
        awk '/Collected/ { print $4; told = 1 } END { if (!told) { print "store: nothing was counted" >"/dev/stderr"; exit 1 } }'
}

# cost MODE ROWS TIMES PROGRAM..
cost() {
    local one two
    one=$($by "$1 $2 $3" "${@:4}")
    two=$($by "$1 $2 $((2 * $3))" "${@:4}")
    awk -v one="$one" -v two="$two" -v times="$3" 'BEGIN { printf "%.3g", (two - one) / times }'
}

# how_often MODE ROWS: how often the store does it, the `Vec`s and the `BTreeMap`s; a walk over few rows is short, one of a map long.
how_often() {
    if [ "$by" = counted ]; then
        echo 10 10 10
        return
    fi
    case $1 in
    few) echo 200000 $((40000000 / $2)) $((40000000 / $2)) ;;
    get) echo 2000000 2000000 2000000 ;;
    put) echo $((200000000 / $2)) $((200000000 / $2)) 1000000 ;;
    *) echo $((40000000 / $2)) $((40000000 / $2)) $((4000000 / $2)) ;;
    esac
}

for mode in add set few many get put walk join; do
    for rows in $rows_to_try; do
        read -r own vec map <<<"$(how_often "$mode" "$rows")"
        printf '| %s | %d | %s | %s | %s |\n' "$mode" "$rows" "$(cost "$mode" "$rows" "$own" "$store")" \
            "$(cost "$mode" "$rows" "$vec" "$folder/store" vec)" "$(cost "$mode" "$rows" "$map" "$folder/store" map)"
    done
done
