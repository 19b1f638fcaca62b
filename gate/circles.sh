#!/usr/bin/env bash
# gate/circles.sh: compares the circles of functions by which a step is run. Apart from what threads need, those on the caller's thread
# and on threads are one text; and apart from what kept workers need, some functions of the one on kept workers are.
set -euo pipefail
cd "$(dirname "${BASH_SOURCE[0]}")/../crates"

# functions FILE: its functions, each on a line, without layout, comments and what threads need.
functions() {
    sed -e '/^pub fn/,$d' -e 's|^ *//.*||' "$1" | tr -d ' \n' | sed \
        -e 's/#\[cycle([a-z_]*)\]/\n/g' | sed \
        -e 1d \
        -e 's/R:Threads+Sync,//g' \
        -e 's/rt:&R,//g' -e 's/workers:usize,//g' \
        -e 's/whereS::Accessor:Send,C::Accessor:Send,//g' \
        -e 's/+Send//g' -e 's/+Sync//g' \
        -e 's/IsSyncR.row×IsSyncV.row×//g' \
        -e 's/(rt,/(/g' -e 's/,workers\([,)]\)/\1/g' \
        -e 's/run_lanes_in_order/run_lanes/g' \
        -e 's/,)/)/g'
}

# shared FILE: of these functions those that the circle on kept workers has too, without what kept workers need.
shared() {
    functions "$1" | sed \
        -e 's/#\[[^]]*\]//g' \
        -e 's/R:Wait,//' -e 's/+Drop//g' \
        -e 's/crew:&mutLaneCrew<V,S,C>,//' -e 's/levels:&\[Arc<Level<V>>\],//' \
        -e 's/requiresstand{[^}]*}//' \
        -e 's/(crew,/(/g' -e 's/,levels\([,)]\)/\1/g' \
        -e 's/letgroups=tier.groups.as_mut_slice();//' -e 's/Some(less),groups,/Some(less),\&muttier.groups,/' |
        grep -E '^fn(run_batch|rounds|run_tiers|turn|run_in_place)<' | sort
}

# alike WHAT FILE FILE NEEDS: what the two files give is one text, and it is not empty.
alike() {
    [ -n "$("$1" "$2")" ] && diff <("$1" "$2" | sed 's/[;{}]/&\n/g') <("$1" "$3" | sed 's/[;{}]/&\n/g') || {
        echo "circles: $2 and $3 differ in more than $4" >&2
        exit 1
    }
}

alike functions shred_run/src/in_order.rt shred_run/src/beside.rt threads
alike shared shred_run/src/in_order.rt shred_kept/src/inner.rt "kept workers"
