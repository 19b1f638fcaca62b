#!/usr/bin/env bash
# measure/plan.sh TIMES MODE PLAN NUMBER..: prints a script that PERFORMANCE.md measures, dispatched so often in this mode. The
# plans: beside SYSTEMS STEPS, chain SYSTEMS, mixed SYSTEMS STEPS, batch SYSTEMS ROUNDS, depth LEVELS, large SYSTEMS.
set -euo pipefail
awk -v times="$1" -v mode="$2" -v plan="$3" -v first="${4:-0}" -v second="${5:-1}" '
    function resources(name, count,  i) { for (i = 1; i <= count; i++) print "res " name i " 0" }
    function system_of(name, after, steps) { print "sys " name " average " after " " steps }
    function again(step, count,  steps, i) { for (i = 1; i <= count; i++) steps = steps step " "; return steps }

    # the next number of a fixed row, below the limit
    function drawn(limit) { row = (row * 1103515245 + 12345) % 2147483648; return int(row / 65536) % limit }

    # each adds to a count of its own and declares to read one that all share
    function beside(count, steps,  i) {
        for (i = 1; i <= count; i++) system_of("s" i, "-", again("C" i "+=1", steps) "?S")
    }

    # each adds to one of 100 resources and declares to read two others; every fifth depends on an earlier one
    function mixed(count, steps,  i, written, one, other, after) {
        for (i = 1; i <= count; i++) {
            written = drawn(100); one = (written + 1 + drawn(49)) % 100; other = (written + 50 + drawn(49)) % 100
            after = i % 5 == 0 ? "s" 1 + drawn(i - 1) : "-"
            system_of("s" i, after, again("R" written + 1 "+=1", steps) "?R" one + 1 " ?R" other + 1)
        }
    }

    BEGIN {
        row = 1
        if (plan !~ /^(beside|chain|mixed|batch|depth|large)$/) { print "plan: no such plan" >"/dev/stderr"; exit 2 }
        if (plan == "beside") { print "res S 0"; resources("C", first); beside(first, second) }
        if (plan == "chain") {
            print "res S 0"; resources("C", first)
            for (i = 1; i <= first; i++) system_of("s" i, i == 1 ? "-" : "s" i - 1, "C" i "+=1 ?S")
        }
        if (plan == "mixed") { resources("R", 100); mixed(first, second) }
        if (plan == "batch") {
            print "res S 0"; resources("C", first)
            print "batch b - " second; beside(first, 1); print "end"
        }
        if (plan == "depth") {
            resources("C", 1)
            for (i = 1; i <= first; i++) print "batch b" i " - 1"
            system_of("s", "-", "C1+=1")
            for (i = 1; i <= first; i++) print "end"
        }
        if (plan == "large") {
            resources("R", 10000)
            for (i = 1; i <= first; i++) system_of("s" i, "-", "R" i * 10 "+=1 ?R" i * 7 + 1)
        }
        print "mode " mode
        print "times " times
    }'
