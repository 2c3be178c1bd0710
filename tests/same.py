#!/usr/bin/env python3
"""Finds runs of equal lines in the sources, definitions and proofs: what is written twice.

    tests/same.py [LINES]

LINES is how many lines a run has at least, 6 where it isn't given. Lines count without the space
around them; empty lines, comments and imports don't count. Each run is printed once, with the places
where it stands.
"""

import sys
from collections import defaultdict
from pathlib import Path

TOP = Path(__file__).resolve().parent.parent


def lines_of(path):
    """The lines that count, each with its number."""
    found = []
    for number, line in enumerate(path.read_text().splitlines(), 1):
        line = line.strip()
        skipped = ("//", "--", "use ", "ghost use ", "pub use ", "mod ", "pub mod ")
        if len(line) > 1 and not line.startswith(skipped):
            found.append((number, line))
    return found


def main():
    least = int(sys.argv[1]) if len(sys.argv) > 1 else 6
    files = {
        path.relative_to(TOP): lines_of(path)
        for pattern in ("*/src/**/*.rt", "*/specs/**/*.antt", "*/proofs/**/*.antt")
        for path in sorted((TOP / "crates").glob(pattern))
    }
    places = defaultdict(list)
    for path, lines in files.items():
        for at in range(len(lines) - least + 1):
            places[tuple(line for _, line in lines[at:at + least])].append((path, at))
    told, count = set(), 0
    for starts in places.values():
        if len(starts) < 2 or all(start in told for start in starts):
            continue
        # The run goes on for as long as all places agree.
        size = least
        while len({files[p][a + size][1] if a + size < len(files[p]) else p for p, a in starts}) == 1:
            size += 1
        for path, at in starts:
            told.update((path, at + k) for k in range(size - least + 1))
        where = ", ".join(f"{path}:{files[path][at][0]}" for path, at in starts)
        print(f"{size} lines: {where}")
        count += 1
    print(f"{count} runs of {least} lines or more stand more than once")


if __name__ == "__main__":
    main()
