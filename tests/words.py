#!/usr/bin/env python3
"""Finds words with two meanings: names that the definitions of two crates both make public.

    tests/words.py

The definitions stand in crates/*/specs/. Whoever reads a contract takes a word for what it means in
the definitions that he has read before, so one spelling is to have one meaning in the whole house: a
crate that means the same as another imports its word, and one that means something else says so by
another name. Names of fields, which are read behind what has them, don't count.

Ends with 'N passed, M failed': a word of one crate passes, and one of several fails.
"""

import re
import sys
from collections import defaultdict
from pathlib import Path

TOP = Path(__file__).resolve().parent.parent
WORD = re.compile(r"^ *(?:(?:abbrev|unfoldable) pub|pub (?:abbrev|data|record|class)) (\S+)", re.M)


def words():
    """Each public word, with the files that define it."""
    found = defaultdict(list)
    for path in sorted((TOP / "crates").glob("*/specs/**/*.antt")):
        for word in set(WORD.findall(path.read_text(encoding="utf-8"))):
            found[word].append(path.relative_to(TOP / "crates"))
    return found


def main():
    found = words()
    twice = {
        word: places for word, places in found.items() if len({p.parts[0] for p in places}) > 1
    }
    for word, places in sorted(twice.items()):
        print(f"FAILED: {word} stands in {', '.join(str(place) for place in places)}")
    print(f"{len(found) - len(twice)} passed, {len(twice)} failed")
    return 1 if twice else 0


if __name__ == "__main__":
    sys.exit(main())
