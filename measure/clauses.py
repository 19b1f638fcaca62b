#!/usr/bin/env python3
"""clauses.py [-l]: how long the contracts of the libraries are; -l lists the clauses over 100 characters. Run it at the top."""
import glob
import re
import sys

PROGRAMS = {"shredrun", "shredkept", "shredbench", "shredplan", "shredmeasure", "storemeasure"}


def libraries():
    """The crates that are neither programs nor examples nor tests."""
    for crate in sorted(glob.glob("crates/*")):
        name = crate.split("/")[1]
        if name not in PROGRAMS and not name.startswith(("test_", "example_")):
            yield name


def contracts(path):
    """Each function of a source with its clauses, a clause over several lines as one."""
    name, public, clauses, open_at = "", False, [], None
    for number, line in enumerate(open(path), 1):
        text = line.strip()
        begins = re.match(r"(pub(?:\([a-z]+\))? )?(?:final )?fn (\w+)", text)
        if begins:
            if clauses:
                yield name, public, clauses
            name, public, clauses, open_at = begins[2], bool(begins[1]), [], None
        if open_at is None and re.match(r"(requires|ensures\*?)\b", text):
            clauses.append([number, text])
            open_at = number
        elif open_at is not None:
            clauses[-1][1] += " " + text
        if open_at is not None and clauses[-1][1].count("{") == clauses[-1][1].count("}"):
            open_at = None
    if clauses:
        yield name, public, clauses


def at(sorted_list, share):
    return sorted_list[min(len(sorted_list) - 1, int(len(sorted_list) * share))]


lengths, totals, longest = [], [], (0, "")
for crate in libraries():
    for path in sorted(glob.glob(f"crates/{crate}/src/**/*.rt", recursive=True)):
        for name, public, clauses in contracts(path):
            total = sum(len(text) for _, text in clauses)
            lengths += [len(text) for _, text in clauses]
            if public:
                totals.append(total)
                longest = max(longest, (total, f"{path} {name}"))
            if "-l" in sys.argv:
                for number, text in clauses:
                    if len(text) > 100:
                        print(f"{path}:{number} {name} {len(text)} {text}")
lengths.sort()
totals.sort()
over = sum(1 for length in lengths if length > 100)
print(f"clauses {len(lengths)}, over 100 characters {over} ({100 * over / len(lengths):.1f} %)")
print(f"length of a clause, median {at(lengths, 0.5)}, 90 % {at(lengths, 0.9)}")
print(f"contract of a public function, median {at(totals, 0.5)}, 90 % {at(totals, 0.9)}")
print(f"longest contract of a public function {longest[0]}: {longest[1]}")
