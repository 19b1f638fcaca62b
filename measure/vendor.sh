#!/usr/bin/env bash
# measure/vendor.sh: begins a program from each example that ./vendor names, in an empty folder of its own, and runs it there by `rt try`.
# It prints nothing where each prints what stands beside it, and `out/` is kept out of commits. The gate does not run it.
set -euo pipefail
cd "$(dirname "${BASH_SOURCE[0]}")/.."

room=$(mktemp -d)
trap 'rm -rf "$room"' EXIT
differ=0
for program in example_first example_game example_grid example_pieces example_store; do
    ./vendor "$room/$program" mine "$program" >/dev/null
    grep -qx 'crates/\*/out/' "$room/$program/.gitignore" || { echo "vendor: no .gitignore beside $program" >&2; differ=1; }
    (cd "$room/$program/crates/mine" && rt try >"$room/stdout" 2>"$room/stderr") || cat "$room/stderr" >&2
    cmp "$room/$program/crates/mine/stdout" "$room/stdout" >&2 || {
        echo "vendor: a program from $program prints something else" >&2
        differ=1
    }
done
exit "$differ"
