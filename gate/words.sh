#!/usr/bin/env bash
# gate/words.sh: a word stands for one definition in all libraries. It prints each that stands for more.
set -euo pipefail
cd "$(dirname "${BASH_SOURCE[0]}")/../crates"

twice=$(
    for crate in shred shred_* script_* plan_* shredstore; do
        find "$crate/specs" -name '*.antt' -not -path '*/declared/*' -not -path '*/contracts/*' 2>/dev/null
    done | xargs grep -oE '^ *(abbrev pub|unfoldable pub|pub record|pub data) [A-Za-z_][A-Za-z0-9_-]*' |
        awk '{ print $NF }' | sort | uniq -d
)
[ -z "$twice" ] || {
    echo "words: these stand for more than one definition:" $twice >&2
    exit 1
}
