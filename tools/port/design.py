#!/usr/bin/env python3
"""Counts in crates/*/src the places that docs/DESIGN-PASS.md speaks of.

    design.py [FOLDER]     the folder that holds crates/, here by default
    design.py --list ..    each place too
"""

import collections
import pathlib
import re
import sys

# A place is a line that the pattern fits, unless the pattern says otherwise.
PATTERNS = {
    "1a enums of the shape of Option or Result": r"^(pub )?enum (Answer|Exit|Found|Received)\b",
    "1b answers tested by hand": r"\bif is_refused\(|^fn is_refused|^pub fn (is_refused|refusal)\(",
    "1c numbers for refusals": r"\brefusal\([0-9]|^ +return ([2-9]|1[0-8]);|^    11$",
    "1d functions that answer a fault's number": r"fn [a-z_]*(fault|_number)\(.*-> u32|^\) -> u32",
    "1e a flag with a value beside it": r"^ +pub (holds|failed): bool,|^ +pub answer: Answer,",
    "1f numbers for kinds": r"\bkind: u32\b",
    "2 functions for one constant or type each": (
        r"^pub fn (read|write)_(corridor|demands|record|plan)\("
        r"|^(pub )?fn (simulate|check|convert|normal|normal_form)_(words|number)\("
        r"|^(pub )?fn (scan_nodes|scan_rows|scan_list|scan_fixed|scan_demands|scan_plan|blocks_answer|padding_answer|fixed_nodes)\b"
        r"|^ +fn scan_(fixed|steps)\(|^fn scan_steps\("
    ),
    "3 loops that count by hand": r"^ +while \S+ < |^ +while 0 < |^ +while turns > 0",
    "4 by hand what the library has": (
        r"\bfn (smaller|within|same_state|least|join|wrapped|still|with_digit|is_digit|set_byte|keep_from)\("
        r"|[a-z]+ / 16777216 % 256|\bas u32\) \+ 256 \*"
    ),
    "6 buffers with a length beside": r"^    pub at: \[u32; 716\],|out: &mut \[u8\]|, out: &mut \[u8\]\) -> usize|lines::\w+\(.*&mut out\)",
    "7 switches on which step to run": r"NodeTest::[A-Z]|match test \{",
}


def sources(top: pathlib.Path) -> list[pathlib.Path]:
    """The files of code below a folder."""
    return sorted(top.glob("crates/*/src/**/*.rt"))


def places(top: pathlib.Path, pattern: str) -> list[str]:
    """The lines that a pattern fits."""
    found = []
    for path in sources(top):
        for number, line in enumerate(path.read_text().splitlines(), 1):
            if re.search(pattern, line):
                found.append(f"{path.relative_to(top)}:{number}: {line.strip()}")
    return found


def facts(top: pathlib.Path) -> dict[str, int]:
    """Each fact that a `requires` asks, with the number of contracts that ask it."""
    counts: collections.Counter[str] = collections.Counter()
    for path in sources(top):
        for clause in re.findall(r"requires(?: \w+)? \{(.*?)\}\s*\n", path.read_text(), re.S):
            for part in re.sub(r"\s+", " ", clause).split("×"):
                counts[part.strip().strip("()")] += 1
    return {fact: count for fact, count in counts.items() if count >= 3}


def main(words: list[str]) -> None:
    """Prints the counts."""
    listed = "--list" in words
    folders = [word for word in words if not word.startswith("--")]
    top = pathlib.Path(folders[0] if folders else ".")
    for name, pattern in PATTERNS.items():
        found = places(top, pattern)
        print(f"{name}: {len(found)}")
        for place in found if listed else []:
            print(f"    {place}")
    repeated = facts(top)
    print(f"5 facts asked by three contracts or more: {len(repeated)}, {sum(repeated.values())} times")
    for fact, count in sorted(repeated.items(), key=lambda pair: -pair[1]) if listed else []:
        print(f"    {count} {fact}")


if __name__ == "__main__":
    main(sys.argv[1:])
