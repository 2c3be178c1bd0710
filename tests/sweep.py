#!/usr/bin/env python3
"""Compares the linker's operators with late-bound names, descended at each use, on many blueprints.

    tests/sweep.py LINK_CASES [COUNT]
    tests/sweep.py --rows

It makes blueprints over the small objects of crates/link_cases/data: every expression of one
operator, every one of two over some of the objects, and COUNT random ones of up to six operators
(5,000 where left out; the same each time), whose names mostly suit what is there. What each must
answer is worked out here by plain recursion on the expression: what a name is defined as and what
a reference is, looked up anew at each use. The proved program LINK_CASES then links them all and
says which answers differ.

With --rows it writes each 12th that is linked and each 40th that is refused behind the other cases
of crates/link_cases/data/cases.txt, and what the program is to print.
"""

import itertools
import random
import sys

import table
from terms import OBJECTS, Leaf, One, Pair, Sites, rebuilt, wanted

NAMES = ["malloc", "grab", "old_malloc", "puts", "print", "zip"]


def ones(inner, names):
    for word in ("restrict", "freeze", "hide"):
        for name in names:
            yield One(word, [name], inner)
    for word in ("rename", "copy_as"):
        for pair in itertools.product(names, repeat=2):
            yield One(word, list(pair), inner)
    for count in range(3):
        for words in itertools.permutations(names, count):
            yield One("show", list(words), inner)


def some(random_, size):
    """A random expression of so many operators, whose names mostly suit what is there."""
    if size == 0:
        return Leaf(random_.choice(list(OBJECTS)))
    if random_.random() < 0.4:
        left = random_.randrange(size)
        return pair(random_, some(random_, left), some(random_, size - 1 - left))
    return one(random_, some(random_, size - 1))


def pair(random_, left, right):
    """Two expressions joined: mostly by an override where a merge would be refused."""
    term = Pair("merge", left, right)
    term.number(Sites())
    shared = any(left.define(name) and right.define(name) for name in left.names())
    often, seldom = ("override", "merge") if shared else ("merge", "override")
    return Pair(often if random_.random() < 0.9 else seldom, left, right)


def one(random_, inner):
    """An operator on an expression."""
    inner.number(Sites())
    defined = sorted(name for name in inner.names() if inner.define(name))
    states = [inner.state(*reference) for reference in inner.references()]
    opened = sorted({name for kind, name in states if kind == "open"})
    lacking = [name for name in opened if name not in defined]

    def pick(names):
        return random_.choice(names if names and random_.random() < 0.96 else NAMES)

    free = [name for name in NAMES if name not in defined]
    if not defined:
        return pair(random_, inner, Leaf(random_.choice(list(OBJECTS))))
    if lacking and random_.random() < 0.7:
        if random_.random() < 0.7:
            return One("rename", [pick(lacking), pick(defined)], inner)
        return One("copy_as", [pick(defined), pick(lacking)], inner)
    word = random_.choice(["rename", "restrict", "freeze", "hide", "show", "copy_as"])
    if word == "rename":
        return One(word, [pick(defined + opened), pick(free)], inner)
    if word == "copy_as":
        return One(word, [pick(defined), pick(free)], inner)
    count = random_.randrange(4) if word == "show" else 1
    return One(word, [pick(defined) for _ in range(count)], inner)


def terms(count):
    small = ["/lib", "/trace"]
    singles = [t for path in OBJECTS for t in ones(Leaf(path), NAMES[:4])]
    pairs = [
        Pair(word, Leaf(a), Leaf(b))
        for word in ("merge", "override") for a in OBJECTS for b in OBJECTS
    ]
    yield from singles
    yield from pairs
    for path in small:
        for inner in ones(Leaf(path), NAMES[:3]):
            yield from (One(t.word, t.words, rebuilt(inner)) for t in ones(inner, NAMES[:3]))
            for word in ("merge", "override"):
                yield Pair(word, rebuilt(inner), Leaf("/new"))
                yield Pair(word, Leaf("/trace"), rebuilt(inner))
    random_ = random.Random(1992)
    for _ in range(count):
        yield some(random_, random_.randrange(3, 7))


FILES = " & ".join(f"{path} {path[1:]}.o" for path in OBJECTS)


def row(number, term):
    return f"sweep {number} | {FILES} & /m (image (no_entry) {term.text()}) | /m | {wanted(term)}"


def write_rows():
    linked, refused = 0, 0
    made = []
    for number, term in enumerate(terms(5000)):
        if wanted(term).startswith("line"):
            refused += 1
            is_taken = refused % 40 == 0
        else:
            linked += 1
            is_taken = linked % 12 == 0
        if is_taken:
            made.append(row(number, term))
    table.write("tests/sweep.py --rows", "blueprints beside plain descent through names", made)


def main():
    if sys.argv[1] == "--rows":
        write_rows()
        return
    count = int(sys.argv[2]) if len(sys.argv) > 2 else 5000
    rows = [row(number, term) for number, term in enumerate(terms(count))]
    table.run(sys.argv[1], rows)
    kinds = [line.split("| line refused ")[1].split()[0] for line in rows if "| line " in line]
    refusals = ", ".join(f"{kinds.count(kind)} {kind}" for kind in ("L5", "L6", "L7", "L8", "L11"))
    print(f"{len(rows)} blueprints agree, {len(rows) - len(kinds)} of them linked; refused {refusals}")


if __name__ == "__main__":
    main()
