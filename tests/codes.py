#!/usr/bin/env python3
"""Compares the table of codes in docs/FORMATS.md with the one that is proved.

    tests/codes.py

The rows of crates/refusal_lines/specs/Codes.antt, which every line and every frame of a refusal
meets, are read as text: name, code, and each field as the document writes it. Each row must stand
in the document, and no other may. Ends with 'N passed, M failed'.
"""

import re
import sys
from pathlib import Path

TOP = Path(__file__).resolve().parent.parent
SPEC = TOP / "crates/refusal_lines/specs/Codes.antt"
DOCUMENT = TOP / "docs/FORMATS.md"
WIDTHS = {"Number": "4", "Wide": "8", "Path": "path", "Symbol": "name"}


def proved():
    """Name to code and fields, as `4`, `8`, `path`, `name` and `site`."""
    rows = {}
    text = SPEC.read_text()
    for name, code, fields in re.findall(r'coded \(codes "(\w+)"\) (\d+) (.*)', text):
        found = ["site"] if fields.startswith("(sited") else []
        found += [WIDTHS[word] for word in re.findall(r"\b(Number|Wide|Path|Symbol)\b", fields)]
        rows[name] = (int(code), found)
    return rows


def written():
    """The same of the document."""
    rows = {}
    part = DOCUMENT.read_text().split("### The codes of refusals", 1)[1]
    for line in part.splitlines()[1:]:
        if line.startswith("#"):
            break
        cells = [cell.strip() for cell in line.strip("|").split("|")]
        if len(cells) != 3 or not re.match(r"[A-Z]\d", cells[0]):
            continue
        names = [name.strip() for name in cells[0].split(",")]
        codes = [int(code) for code in cells[1].split(",")]
        fields = [] if cells[2] == "none" else [f.split()[-1] for f in cells[2].split(",")]
        if len(names) != len(codes):
            sys.exit(f"{cells[0]}: {len(names)} names and {len(codes)} codes")
        for name, code in zip(names, codes):
            rows[name] = (code, fields)
    return rows


def main():
    ours, theirs = proved(), written()
    wrong = 0
    for name in sorted(ours.keys() | theirs.keys()):
        if ours.get(name) != theirs.get(name):
            print(f"{name}: proved {ours.get(name)}, written {theirs.get(name)}")
            wrong += 1
    print(f"{len(ours) - wrong} passed, {wrong} failed")
    sys.exit(wrong > 0 or not ours)


if __name__ == "__main__":
    main()
