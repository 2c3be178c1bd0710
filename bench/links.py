#!/usr/bin/env python3
"""Writes objects and a case of link_cases over them into the current folder, for bench/operators.sh,
bench/evaluate.sh and bench/sharing.sh.

    bench/links.py TESTS merge TABLES          a merge of objects with 2,000 names each
    bench/links.py TESTS chain REFERENCES OPS  so many operators over open references, of 25,000 each
    bench/links.py TESTS objects COUNT         a merge of plain objects
    bench/links.py TESTS references COUNT      an object with so many relocations
    bench/links.py TESTS doubled LEVELS        a blueprint doubled so often by overrides of itself
    bench/links.py TESTS apart LEVELS          the same leaves, each use a blueprint of its own
    bench/links.py TESTS variants COUNT        so many variants of a library of five objects
    bench/links.py TESTS libraries COUNT       the same, each variant with a library of its own

TESTS is the folder tests/, whose objects.py lays objects out.
"""

import importlib.util
import sys
from pathlib import Path

spec = importlib.util.spec_from_file_location("objects", Path(sys.argv[1]) / "objects.py")
objects = importlib.util.module_from_spec(spec)
spec.loader.exec_module(objects)

CODE = b"\xe8\0\0\0\0" + b"\x90" * 11  # a call, whose field is at 1
DEPTH = 60  # operators in one blueprint


def call(distance):
    """CODE whose call leads so far from the call's end."""
    return b"\xe8" + distance.to_bytes(4, "little", signed=True) + CODE[5:]


def write(published, codes):
    """The case that links /m, whose image has this code in it, piece by piece, and nothing else."""
    size = 4096 + -(-len(CODE) * len(codes) // 4096) * 4096
    code = b"".join(codes).hex(" ")
    text = " & ".join(published)
    Path("cases.txt").write_text(f"whole | {text} | /m | size {size} & at 400000 {code}\n")


def put(path, names, relas, published):
    name = path.strip("/").replace("/", "-") + ".o"
    Path(name).write_bytes(objects.plain(CODE, 16, names, relas))
    published.append(f"{path} {name}")


def merge_of(paths):
    return f"(merge {' '.join(paths)})"


def merge(tables):
    published = []
    for t in range(tables):
        put(f"/t/{t}", [(f"n{t:03}x{n:04}", 0) for n in range(2000)], [], published)
    whole = merge_of([f"/t/{t}" for t in range(tables)])
    published.append(f"/m (image (no_entry) {whole})")
    write(published, [CODE] * tables)


def chain(references, operators):
    published = []
    parts = references // 25000
    for r in range(parts):
        put(f"/r/{r}", [("x", None)], [(1, 4, 1, -4)] * 25000, published)
    hidden = [f"h{n}" for n in range(operators // 3 + 1)]
    put("/d", [("f", 0)] + [(name, 0) for name in hidden], [], published)
    put("/x", [("x", 0)], [], published)
    inner = merge_of([f"/r/{r}" for r in range(parts)] + ["/d"])
    names = ["x", "y"]
    for n in range(operators):
        if n % 3 == 0:
            inner = f"(rename {names[0]} {names[1]} {inner})"
            names.reverse()
        elif n % 3 == 1:
            inner = f"(freeze f {inner})"
        else:
            inner = f"(hide {hidden[n // 3]} {inner})"
        if n % DEPTH == DEPTH - 1:
            published.append(f"/c/{n} (image (no_entry) {inner})")
            inner = f"/c/{n}"
    if names[0] == "y":
        inner = f"(rename y x {inner})"
    published.append(f"/m (image (no_entry) (merge {inner} /x))")
    calls = [call((parts + 1 - r) * len(CODE) - 5) for r in range(parts)]
    write(published, calls + [CODE, CODE])


def plain(count):
    published = []
    for n in range(count):
        put(f"/o/{n}", [(f"f{n}", 0)], [(1, 4, 1, -4)], published)
    whole = merge_of([f"/o/{n}" for n in range(count)])
    published.append(f"/m (image (no_entry) {whole})")
    write(published, [call(-5)] * count)


def references(count):
    published = []
    put("/o/0", [("f", 0)], [(1, 4, 1, -4)] * count, published)
    put("/o/1", [("g", 0)], [], published)
    published.append("/m (image (no_entry) (merge /o/0 /o/1))")
    write(published, [call(-5), CODE])


def overrides(leaves, published):
    """The last of so many leaves is called by all."""
    put("/o", [("f", 0)], [(1, 4, 1, -4)], published)
    write(published, [call((leaves - 1 - n) * len(CODE) - 5) for n in range(leaves)])


def doubled(levels):
    paths = ["/o"] + [f"/d/{k}" for k in range(levels - 1)] + ["/m"]
    published = [
        f"{path} (image (no_entry) (override {inner} {inner}))"
        for inner, path in zip(paths, paths[1:])
    ]
    overrides(2**levels, published)


def apart(levels):
    published = []

    def tree(depth, path):
        below = ["/o", "/o"] if depth == 1 else [f"{path}/0", f"{path}/1"]
        for inner in below if depth > 1 else []:
            tree(depth - 1, inner)
        published.append(f"{path} (image (no_entry) (override {' '.join(below)}))")

    tree(levels, "/m")
    overrides(2**levels, published)


def library(path, published):
    objects_ = merge_of([f"/o/{n}" for n in range(5)])
    published.append(f"{path} (image (no_entry) {objects_})")


def many(count, own):
    """Variants that show one function of the library each, under a name of their own."""
    published = []
    for n in range(5):
        put(f"/o/{n}", [(f"f{n}", 0)], [(1, 4, 1, -4)], published)
    library("/lib", published)
    for k in range(count):
        path = f"/lib/{k}" if own else "/lib"
        if own:
            library(path, published)
        inner = f"(rename f0 g{k} (show (f0) {path}))"
        published.append(f"/v/{k} (image (no_entry) {inner})")
    published.append(f"/m (image (no_entry) {merge_of([f'/v/{k}' for k in range(count)])})")
    write(published, [call(-5)] * (5 * count))


def variants(count):
    many(count, own=False)


def libraries(count):
    many(count, own=True)


KINDS = {
    "merge": merge, "chain": chain, "objects": plain, "references": references,
    "doubled": doubled, "apart": apart, "variants": variants, "libraries": libraries,
}
KINDS[sys.argv[2]](*map(int, sys.argv[3:]))
