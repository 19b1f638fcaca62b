#!/usr/bin/env bash
# measure/refuse.sh: refuses each request for memory, and each start of a thread, of the programs and of the tests that ask for
# it, one after the other, and prints for each of them how often it ended as with ample memory, and how else. A program or
# test that is not built is proved and built first. The status is 1 where one ended as it may not.
set -euo pipefail
cd "$(dirname "${BASH_SOURCE[0]}")/.."

room=$(mktemp -d)
trap 'rm -rf "$room"' EXIT
gcc -shared -fPIC -O1 -o "$room/refuse.so" measure/refuse.c
differ=0

# The tests that pass whichever request is refused: a crate, and how their names begin.
tests='test_worlds refusals::
test_cells refusals::
test_trees refusals::
test_kept refusals::once_a_
test_async refusals::a_run_is_begun_or_all_is_lost
test_store refusals::
test_builder refusals::
test_scripts refusals::
test_batches adding::a_batch_is_added_or_memory_is_wanting
test_dispatch locals::cases::a_call_that_finds_no_memory_is_made_again'

# built CRATE, built_tests CRATE: the path of its program, or of its tests.
built() {
    local program=crates/$1/out/$1
    [ -x "$program" ] || (cd "crates/$1" && rt run <stdin >/dev/null)
    echo "$program"
}

built_tests() {
    local program=crates/$1/out/$1_tests
    [ -x "$program" ] || (cd "crates/$1" && rt test >/dev/null)
    echo "$program"
}

# ran VARIABLE NUMBER COMMAND..: runs the command on the input, with what the variable says refused.
ran() {
    local words=("LD_PRELOAD=$room/refuse.so" "REFUSED=$room/refused" "$1=$2")
    shift 2
    rm -f "$room/refused"
    status=0
    timeout 60 env "${words[@]}" "$@" <"$input" >"$room/stdout" 2>"$room/stderr" || status=$?
}

is_ample() {
    [ "$status" -eq "$ample" ] && cmp -s "$room/stdout" "$room/ample-stdout" && cmp -s "$room/stderr" "$room/ample-stderr"
}

# count_end NAME: the last run ended as with ample memory, or in another way that it may end in. A way is the status, the last
# line of standard output, and standard error.
count_end() {
    local way
    if is_ample; then
        way=ample
    else
        way="$status|$(tail -n 1 "$room/stdout")|$(tail -n 1 "$room/stderr")"
        if ! [[ $way =~ ^($may)$ ]]; then
            echo "refuse: $1 ends otherwise: $way" >&2
            differ=1
        fi
    fi
    ends[$way]=$((${ends[$way]:-0} + 1))
}

# each_refused NAME VARIABLE COMMAND..: of the command, each in turn, up to the first that it does not come to.
each_refused() {
    local name=$1 variable=$2 number way text=
    local -A ends=()
    shift 2
    for ((number = 0; ; number++)); do
        ran "$variable" "$number" "$@"
        [ -e "$room/refused" ] || break
        count_end "$name"
    done
    for way in "${!ends[@]}"; do text+=" ${ends[$way]} $way;"; done
    echo "$name: $number${text:+,}${text%;}"
}

# swept NAME COMMAND..: with its memory and with its threads, and with no thread at all.
swept() {
    local name=$1
    shift
    ran REFUSE_NOTHING 0 "$@"
    ample=$status
    mv "$room/stdout" "$room/ample-stdout"
    mv "$room/stderr" "$room/ample-stderr"
    each_refused "$name, memory" REFUSE_MEMORY "$@"
    local may='none'
    each_refused "$name, threads" REFUSE_THREAD "$@"
    local -A ends=()
    ran REFUSE_THREADS 0 "$@"
    count_end "$name, no thread"
}

sweep_scripts() {
    local script way program mode
    local may='2\|\|out of memory|2\|(system|local|stage) [0-9]+ out of memory\|'
    for script in examples/*.script; do
        for way in 'shredrun par' 'shredrun seq' 'shredkept par'; do
            read -r program mode <<<"$way"
            { cat "$script"; printf '\nmode %s\n' "$mode"; } >"$room/script"
            input=$room/script
            swept "$(basename "$script") by $way" "$(built "$program")"
        done
    done
    input=/dev/null
    may='2\|\|out of memory|1\|\|demo failed'
    swept 'shredrun demo' "$(built shredrun)" demo
}

sweep_tests() {
    local crate prefix program test may='none'
    input=/dev/null
    while read -r crate prefix; do
        program=$(built_tests "$crate")
        while read -r test; do
            swept "$crate $test" "$program" "$test"
        done < <("$program" --list | sed -n "s/^\($prefix.*\): test$/\1/p")
    done <<<"$tests"
}

sweep_scripts
sweep_tests
exit "$differ"
