#!/usr/bin/env python3
"""Looks whether definitions that stand apart do stand apart.

    tests/inside.py

What the product means stands in crates/*/specs/. What only functions of one crate need for their own
proofs stands in crates/*/specs/inside/: no source and no definition of another crate may cite it.
Proofs may, since nobody has to read them to know what is promised.

Ends with 'N passed, M failed': a file of specs/inside/ passes, or fails where another crate cites it.
"""

import re
import sys
from pathlib import Path

CRATES = Path(__file__).resolve().parent.parent / "crates"
CITED = re.compile(r"Rattle\.(\w+)\.specs\.inside\.(\w+)")


def readers():
    """The sources and definitions of all crates."""
    yield from CRATES.glob("*/src/**/*.rt")
    yield from CRATES.glob("*/specs/**/*.antt")


def main():
    apart = {(p.parts[-4], p.stem) for p in CRATES.glob("*/specs/inside/*.antt")}
    wrong = set()
    for path in readers():
        crate = path.relative_to(CRATES).parts[0]
        for cited in CITED.findall(path.read_text(encoding="utf-8")):
            if cited[0] != crate:
                print(f"FAILED: {path.relative_to(CRATES)} cites {'.'.join(cited)}")
                wrong.add(cited)
    print(f"{len(apart - wrong)} passed, {len(wrong)} failed")
    return 1 if wrong else 0


if __name__ == "__main__":
    sys.exit(main())
