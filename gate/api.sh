#!/usr/bin/env bash
# gate/api.sh: compares the names of API.md with the public ones that `shred` gives: types, traits, functions, macros, and of
# each type and trait its calls. It prints nothing where they are the same.
set -euo pipefail
cd "$(dirname "${BASH_SOURCE[0]}")/../crates"
export LC_ALL=C

given() {
    sed -n '/^pub use/,/;/p' shred/src/lib.rt | tr -d '\n' | tr ';' '\n' | sed 's/.*:://' | grep -oE '\w+' | grep -vx -e cell -e word
    sed -nE 's/^pub (struct|enum|trait|type|fn|const) (\w+).*/\2/p' shred_cell/src/{cell,word}.rt
    sed -nE 's/^macro_rules! (\w+).*/\1/p' shred/src/macros.rt
}

# sources: each name that is given, and `NAME MEMBER` for each member. An item and its last line begin at the margin.
sources() {
    find shred $(sed -nE 's/^pub use (shred_\w+).*/\1/p' {shred,shred_world}/src/lib.rt) -path '*/src/*' -name '*.rt' |
        xargs awk -v given="$(given | tr '\n' ' ')" '
            function tell(name) { sub(/[^A-Za-z_0-9].*/, "", name); if (owner in is_given) print owner, name }
            BEGIN { split(given, names, " "); for (i in names) { is_given[names[i]]; print names[i] } }
            FNR == 1 || /^}/ { owner = head = ""; is_trait = 0 }
            /^pub trait / { is_trait = 1; owner = $3; sub(/[^A-Za-z_0-9].*/, "", owner) }
            /^impl/ || head { sub(/^impl/, "impl "); head = head " " $0 }
            head && /[{]$/ {
                gsub(/->/, "", head)
                while (gsub(/<[^<>]*>/, "", head)) ;
                split(head, words, " ")
                owner = words[3] == "for" ? "" : words[2]
                head = ""
            }
            /^    pub (final )?fn / || is_trait && /^    (final )?fn / { sub(/.*fn /, ""); tell($0) }'
}

# page: of API.md the names with which its headings and items begin.
page() {
    awk '
        /^## / { section = "" }
        /^(##|-) (trait )?`/ {
            is_heading = /^#/
            owner = section
            for (sub(/^[^`]*/, ""); match($0, /^`[^`]+`/); sub(/^[,:] /, "")) {
                name = substr($0, 2, RLENGTH)
                $0 = substr($0, RLENGTH + 1)
                sub(/[^A-Za-z_0-9].*/, "", name)
                print owner (owner ? " " : "") name
                if (is_heading) section = name
                if (/^: /) owner = name
            }
        }' ../docs/API.md
}

differ=$(diff <(page | sort -u) <(sources | sort -u) | sed -nE 's/^</api: no source has/p; s/^>/api: API.md lacks/p') || true
[ -z "$differ" ] || { echo "$differ" >&2; exit 1; }
