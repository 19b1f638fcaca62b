#!/usr/bin/env bash
# gate/places.sh: looks whether each place that ARCHITECTURE.md and DEFINITIONS.md name is there. A place is a file of the crate that
# is named last, `FILE.rt` of `src/`, `FILE` of `specs/` or a path in the crate, and names behind it, as in
# shred_run `in_order.rt` `turn_groups`, `run_group`. It prints each that is not there.
set -euo pipefail
cd "$(dirname "${BASH_SOURCE[0]}")/../crates"

# places: a line `CRATE/FILE NAME` for each name, and `CRATE/FILE -` for each file.
places() {
    awk -v folders="$(ls -d -- *)" '
        BEGIN { split(folders, list, "\n"); for (i in list) is_crate[list[i]] }
        function path(word) {
            if (word ~ /\.rt$/) return crate "/src/" word
            return crate "/" (word ~ /\// ? word : "specs/" word ".antt")
        }
        FNR == 1 { crate = "" }
        {
            # What the last word was: a crate, a file, or a name in it.
            last = ""
            for (left = $0; match(left, /`[^`]+`|[a-z_]+/); left = substr(left, RSTART + RLENGTH)) {
                between = substr(left, 1, RSTART - 1)
                word = substr(left, RSTART, RLENGTH)
                has_name = substr(left, RSTART + RLENGTH, 2) == " `"
                if (word !~ /^`/) {
                    last = word in is_crate ? "crate" : ""
                    if (last) crate = word
                    continue
                }
                gsub(/`/, "", word)
                if (last == "file" && between == " " || last == "name" && between == ", " && !has_name) {
                    last = "name"
                    print file, word
                } else if (has_name || last == "crate" && between ~ /^( \|)? $/ || last == "file" && between == ", ") {
                    last = "file"
                    file = path(word)
                    print file, "-"
                } else {
                    last = ""
                }
            }
        }' ../docs/ARCHITECTURE.md ../docs/DEFINITIONS.md | sort -u
}

# has FILE NAME: the file declares the name, of which it has the type too in `TYPE::NAME`.
has() {
    local words='fn|struct|enum|trait|type'
    [[ $1 == *.rt ]] || words='abbrev pub|unfoldable pub|pub record|pub data|pub'
    grep -qE "($words) ${2##*::}( |<|\(|:|;|\$)" "$1" && grep -qw -- "${2%%::*}" "$1"
}

missing=0
while read -r file name; do
    [ -e "$file" ] && { [ "$name" = - ] || has "$file" "$name"; } || {
        echo "places: crates/$file $name is not there" >&2
        missing=1
    }
done < <(places)
exit "$missing"
