#!/usr/bin/env bash
# examples/compare.sh: runs the built shredrun, shredkept and shredplan on the scripts of this folder, and compares the status,
# standard output and standard error with what is wanted. It prints nothing where all agree.
# - NAME.script is to print the file NAME.stdout, which was worked out by hand; the status has to be 0 where the last
#   line is `ok`, else 2.
# - rows.txt has a script a line, with its status before it and what it prints behind it, in columns with one tab
#   between them: STATUS, SCRIPT, STDOUT and, where something is told there, STDERR. All but the first are written as
#   `printf %b` reads them: \n is a line feed, \t a tab, \r a carriage return, \\ a backslash and \xHH the byte of that
#   value. A line feed stands at an end only where one is written. Empty lines and lines that begin with # are no rows.
#   A row without STDOUT is run once more with a standard output that takes nothing, and has to end in the same way. What
#   a row is told of its lines, shredplan has to tell too.
# - What prints something is run on several numbers of workers besides, and has to end in the same way.
# - random.txt has whole scripts, each behind a line `=== NUMBER`. The line `--- STATUS stdout` or `--- STATUS stderr`
#   ends it, and what is printed there follows; nothing is printed on the other.
# - NAME.dot, NAME.report and NAME.conflicts are what shredplan is to print of NAME.script, asked for that, worked out by hand.
#   Of its svg NAME.classes has a line for each class, with the number of its elements.
# - Of arguments shredrun takes the word `demo` alone, and shows the demo then.
set -euo pipefail
cd "$(dirname "${BASH_SOURCE[0]}")"

shredrun=../crates/shredrun/out/shredrun
shredkept=../crates/shredkept/out/shredkept
program=("$shredrun")
shredplan=../crates/shredplan/out/shredplan
room=$(mktemp -d)
trap 'rm -rf "$room"' EXIT
differ=0
tab=$'\t'

complain() {
    echo "examples: ${program[0]##*/}: $1" >&2
    differ=1
}

# has_ended NAME WANTED STATUS ERR: the last run ended with STATUS, which is the wanted one, and printed this file on
# standard error.
has_ended() {
    cmp "$4" "$room/stderr" >&2 || complain "$1 is told something else"
    [ "$3" -eq "$2" ] || complain "$1 ends otherwise, with status $3"
}

# ends_so NAME SCRIPT STATUS OUT ERR: run on this script, the program ends with this status, and prints these two files.
ends_so() {
    local status=0
    "${program[@]}" <"$2" >"$room/stdout" 2>"$room/stderr" || status=$?
    cmp "$4" "$room/stdout" >&2 || complain "$1 prints something else"
    has_ended "$1" "$3" "$status" "$5"
}

# writes_nothing NAME SCRIPT STATUS ERR: it ends so as well where standard output takes nothing.
writes_nothing() {
    local status=0
    "${program[@]}" <"$2" >/dev/full 2>"$room/stderr" || status=$?
    has_ended "$1, without room for its output," "$3" "$status" "$4"
}

# ends_so_on_any_workers NAME SCRIPT STATUS OUT: it ends so on each of these numbers of workers too. Of several lines that
# say a number the last counts.
ends_so_on_any_workers() {
    local workers
    for workers in 0 1 2 3 8 64; do
        { cat "$2"; printf '\nworkers %s\n' "$workers"; } >"$room/on-workers"
        ends_so "$1, on $workers workers," "$room/on-workers" "$3" "$4" /dev/null
    done
}

compare_files() {
    local script expected wanted
    for script in *.script; do
        expected=${script%.script}.stdout
        wanted=2
        [ "$(tail -n 1 "$expected")" != ok ] || wanted=0
        ends_so "$script" "$script" "$wanted" "$expected" /dev/null
        ends_so_on_any_workers "$script" "$script" "$wanted" "$expected"
    done
}

# is_told_of_plan NAME STATUS: shredplan tells the row's script what shredrun tells it.
is_told_of_plan() {
    local word program
    for word in conflicts report; do
        program=("$shredplan" "$word")
        ends_so "$1, as a plan," "$room/script" "$2" /dev/null "$room/wanted-stderr"
    done
}

compare_plans() {
    local wanted word program
    for wanted in *.conflicts *.dot *.report; do
        word=${wanted##*.}
        program=("$shredplan" "$word")
        ends_so "$wanted" "${wanted%.*}.script" 0 "$wanted" /dev/null
    done
    for wanted in *.classes; do
        "$shredplan" svg <"${wanted%.*}.script" | grep -o 'class="[a-z]*"' | cut -d'"' -f2 | sort | uniq -c |
            awk '{ print $2, $1 }' >"$room/classes"
        cmp "$wanted" "$room/classes" >&2 || complain "$wanted has other numbers"
    done
}

compare_rows() {
    local row number=0 rows=0 name status
    while IFS= read -r row || [ -n "$row" ]; do
        number=$((number + 1))
        case $row in '' | '#'*) continue ;; esac
        name="line $number of rows.txt"
        if ! [[ $row =~ ^([0-2])$tab([^$tab]*)$tab([^$tab]*)($tab([^$tab]+))?$ ]]; then
            complain "$name is no row"
            continue
        fi
        status=${BASH_REMATCH[1]}
        printf %b "${BASH_REMATCH[2]}" >"$room/script"
        printf %b "${BASH_REMATCH[3]}" >"$room/wanted-stdout"
        printf %b "${BASH_REMATCH[5]}" >"$room/wanted-stderr"
        ends_so "$name" "$room/script" "$status" "$room/wanted-stdout" "$room/wanted-stderr"
        if [ -s "$room/wanted-stdout" ]; then
            ends_so_on_any_workers "$name" "$room/script" "$status" "$room/wanted-stdout"
        else
            writes_nothing "$name" "$room/script" "$status" "$room/wanted-stderr"
        fi
        ! grep -q '^line ' "$room/wanted-stderr" || is_told_of_plan "$name" "$status"
        rows=$((rows + 1))
    done <rows.txt
    [ "$rows" -gt 0 ] || complain "rows.txt has no row"
}

# A script N of random.txt becomes the files N.script, N.status, N.stdout and N.stderr.
compare_random() {
    local number status case scripts=0
    awk -v room="$room/" '
        function empty(file) { printf "" > file; close(file) }
        /^=== / {
            close(part); name = room $2; part = name ".script"; print $2
            empty(name ".script"); empty(name ".stdout"); empty(name ".stderr"); next
        }
        /^--- / { close(part); print $2 > (name ".status"); close(name ".status"); part = name "." $3; next }
        { print > part }
    ' random.txt >"$room/numbers"
    while read -r number; do
        case=$room/$number
        read -r status <"$case.status"
        ends_so "script $number of random.txt" "$case.script" "$status" "$case.stdout" "$case.stderr"
        [ ! -s "$case.stdout" ] ||
            ends_so_on_any_workers "script $number of random.txt" "$case.script" "$status" "$case.stdout"
        scripts=$((scripts + 1))
    done <"$room/numbers"
    [ "$scripts" -gt 0 ] || complain "random.txt has no script"
}

# is_told_usage ARGUMENT..: shredrun is told how it is called, and runs no script.
is_told_usage() {
    local program=("$program" "$@")
    ends_so "the call with '$*'," "$room/script" 1 /dev/null "$room/wanted-stderr"
}

compare_arguments() {
    printf 'res X 1\n' >"$room/script"
    printf 'usage: shredrun [demo]\n' >"$room/wanted-stderr"
    is_told_usage ''
    is_told_usage Demo
    is_told_usage demos
    is_told_usage --demo
    is_told_usage $'\xff'
    is_told_usage demo ''
    is_told_usage demo demo
    is_told_usage script demo
    local program=("$program" demo)
    printf 'e0 8 5 11\ne1 10 - 27\nok\n' >"$room/wanted-stdout"
    ends_so "the demo" "$room/script" 0 "$room/wanted-stdout" /dev/null
    printf 'demo failed\n' >"$room/wanted-stderr"
    writes_nothing "the demo" "$room/script" 1 "$room/wanted-stderr"
}

compare_arguments
compare_plans
for each in "$shredrun" "$shredkept"; do
    program=("$each")
    compare_files
    compare_rows
    compare_random
done
exit "$differ"
