#!/usr/bin/env python3
"""Compares versions of the namespace with a plain sorted list and with pages kept as lists.

    tests/versions.py LINK_CASES
    tests/versions.py --rows

It publishes paths in rising, falling and mixed order, some of them twice, and works out here which
entries a version has and how many each of its pages: a page of 65 becomes two of 32 and 33, a branch
of 65 pages likewise, and a new path goes into the last page whose first path is below it, or into
the first page. The proved program LINK_CASES then answers the same and says which answers differ.

With --rows it writes the small ones behind the other cases of crates/link_cases/data/cases.txt, and
what the program is to print.
"""

import bisect
import random
import sys

import table

FILL = 64


def parted(items):
    return [items[:32], items[32:]] if len(items) > FILL else [items]


def last_begun(firsts, path):
    """The number of the last part whose first path isn't above the path, or 0."""
    return max(bisect.bisect_right(firsts, path) - 1, 0)


class Version:
    def __init__(self):
        self.branches = []
        self.stamps = {}

    def publish(self, path, stamp):
        known = path in self.stamps
        self.stamps[path] = stamp
        if known:
            return
        if not self.branches:
            self.branches = [[[path]]]
            return
        b = last_begun([branch[0][0] for branch in self.branches], path)
        branch = self.branches[b]
        p = last_begun([page[0] for page in branch], path)
        page = sorted([*branch[p], path])
        branch[p : p + 1] = parted(page)
        self.branches[b : b + 1] = parted(branch)

    def entries(self):
        return "".join(f"{path} {self.stamps[path]}\\n" for path in sorted(self.stamps))

    def counts(self):
        return "".join(
            "".join(f" {len(page)}" for page in branch) + "\\n" for branch in self.branches
        )


def rows_of(name, numbers):
    """What is asked of a version: its entries, and the counts of its pages."""
    version = Version()
    published = []
    for stamp, number in enumerate(numbers, 1):
        version.publish(f"/p{number}", stamp)
        published.append(f"/p{number} new.o")
    text = " & ".join(published)
    yield f"the entries of {name} | {text} | list | text {version.entries()}"
    # Blanks at the ends of a wanted text are written so.
    yield f"the pages of {name} | {text} | pages | text \\x20{version.counts()[1:]}"


def mixed(count, first, repeats):
    dice = random.Random(f"{count} {repeats}")
    numbers = list(range(first, first + count))
    dice.shuffle(numbers)
    for _ in range(repeats):
        numbers.insert(dice.randrange(1, len(numbers)), numbers[0])
    return numbers


def small():
    rising = list(range(100, 165))
    cases = {
        "64 paths, falling": rising[64:0:-1],
        "65 paths, falling": rising[::-1],
        "65 paths, rising": rising,
        "65 paths, one twice": [*rising, 130],
        "a first page that splits": [*range(150, 215), *range(149, 100, -1)],
        "a middle page that splits": [*range(100, 198), *range(1321, 1354)],
        "150 paths, mixed": mixed(150, 100, 5),
    }
    for name, numbers in cases.items():
        yield from rows_of(name, numbers)


def large():
    for count in (2111, 2112, 2113, 2200):
        yield from rows_of(f"{count} paths, rising", range(10000, 10000 + count))
        yield from rows_of(f"{count} paths, falling", range(10000 + count, 10000, -1))
    for count in (3000, 5000):
        yield from rows_of(f"{count} paths, mixed", mixed(count, 10000, 50))
    # A branch in the middle that splits.
    yield from rows_of("a middle branch", [*range(20000, 25000), *range(2100000, 2102200)])


def main():
    if sys.argv[1:] == ["--rows"]:
        table.write("tests/versions.py --rows", "versions beside plain lists", list(small()))
    elif len(sys.argv) == 2:
        rows = [*small(), *large()]
        table.run(sys.argv[1], rows)
        print(f"{len(rows)} answers on versions agree")
    else:
        sys.exit(__doc__)


if __name__ == "__main__":
    main()
