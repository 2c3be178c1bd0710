#!/usr/bin/env python3
"""Writes rows of store_cases, for bench/store.sh.

    bench/rows.py hits PATHS COUNT     so many hits of an image that read so many paths
    bench/rows.py others PATHS COUNT   the same, with a publish of another path before each
    bench/rows.py places COUNT         so many images, each of a path and a place of its own
    bench/rows.py lists PLACES COUNT   so many looks at the placements of a path, in a book
    bench/rows.py counts STEPS COUNT   so many looks at the counts, behind so many steps
    bench/rows.py puts COUNT           so many publishes, in mixed order
"""

import random
import sys


class Rows:
    """The rows of one store, with their answers."""

    def __init__(self):
        self.lines = ["64 65536"]
        self.version = 0

    def put(self, path, content):
        self.version += 1
        self.lines.append(f"put 448 {path} {content} | published {self.version}")

    def link(self, word, path, base, size=8192):
        self.lines.append(f"link {path} | {word} {self.version} {base:#x} {size}")


def image(rows, paths):
    """Publishes /m, whose image reads so many paths, and links it."""
    if paths == 1:
        rows.put("/m", "start.o")
    else:
        for k in range(paths - 1):
            rows.put(f"/o/{k}", "start.o")
        hidden = " ".join(f"(hide _start /o/{k})" for k in range(paths - 1))
        rows.put("/m", f"(image (no_entry) (merge {hidden}))")
    rows.link("image", "/m", 0x400000)


def hits(rows, paths, count):
    image(rows, paths)
    for _ in range(count):
        rows.link("hit", "/m", 0x400000)


def others(rows, paths, count):
    image(rows, paths)
    for k in range(count):
        rows.put(f"/x/{k}", "start.o")
        rows.link("hit", "/m", 0x400000)


def places(rows, count):
    rows.put("/a", "start.o")
    for k in range(count):
        rows.put(f"/p/{10000 + k}", "(image /a)")
        rows.link("image", f"/p/{10000 + k}", 0x400000 + 4096 * k)


def lists(rows, placed, count):
    places(rows, placed)
    rows.lines += ["places /p/15000 | places 0x1788000 1"] * count


def counts(rows, steps, count):
    rows.put("/a", "start.o")
    rows.lines += ["flush /b | flushed false"] * (steps - 1)
    for k in range(count):
        rows.lines.append(f"stats | 1 1 0 0 0 0 0 0 {steps + k}")


def puts(rows, count):
    numbers = list(range(100000, 200000))
    random.Random(1).shuffle(numbers)
    for number in numbers[:count]:
        rows.put(f"/p/{number}", "(image /a)")


def main():
    kinds = {f.__name__: f for f in (hits, others, places, lists, counts, puts)}
    if len(sys.argv) < 3 or sys.argv[1] not in kinds:
        sys.exit(__doc__)
    rows = Rows()
    kinds[sys.argv[1]](rows, *map(int, sys.argv[2:]))
    print("\n".join(rows.lines))


if __name__ == "__main__":
    main()
