#!/usr/bin/env bash
# gate/compare.sh: compares each program that a document prints with the file of `crates/` that the text before it names
# last. It prints nothing where all agree.
set -euo pipefail
cd "$(dirname "${BASH_SOURCE[0]}")/.."

room=$(mktemp -d)
trap 'rm -rf "$room"' EXIT
awk -v room="$room" '
    FNR == 1 { inside = 0; named = "" }
    /^```rust$/ { inside = 1; block = room "/" ++count; printf "" > block; print FILENAME, named, block; next }
    /^```$/ { inside = 0; next }
    inside { print > block; next }
    match($0, /crates\/[a-z_\/]+\.rt/) { named = substr($0, RSTART, RLENGTH) }
' README.md docs/*.md >"$room/blocks"

differ=0
grep -q '^README.md ' "$room/blocks" || { echo "docs: README.md prints no program" >&2; differ=1; }
while read -r page file block; do
    cmp "$file" "$block" >&2 || { echo "docs: $page prints another program than $file" >&2; differ=1; }
done <"$room/blocks"
exit "$differ"
