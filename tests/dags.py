#!/usr/bin/env python3
"""Compares links of blueprints that share others with plain descent, in which each use is anew.

    tests/dags.py LINK_CASES [COUNT]
    tests/dags.py --rows

It makes COUNT namespaces (1,500 where left out; the same each time) of up to 12 blueprints, each
named up to 4 times by later ones. A part of them has a tail that brings it near a limit: 32
blueprints inside one another, 4,096 nodes, 256 leaves. What each must answer is worked out by
terms.py, which goes through a blueprint anew wherever it is named.

With --rows it writes each 25th behind the other cases of crates/link_cases/data/cases.txt.
"""

import random
import sys

import sweep
import table
from terms import OBJECTS, Leaf, Named, One, Pair, Refused, rebuilt, wanted

FILES = " & ".join(f"{path} {path[1:]}.o" for path in OBJECTS)


def frozen(count, name, inner):
    """So many freezes of one name: nodes that change nothing after the first."""
    for _ in range(count):
        inner = One("freeze", [name], inner)
    return inner


def joined(random_, left, right):
    """Two terms joined; a term that is past a limit is joined by an override."""
    try:
        return sweep.pair(random_, left, right)
    except Refused:
        return Pair("override", left, right)


def under(random_, inner):
    try:
        return sweep.one(random_, inner)
    except Refused:
        return One("hide", ["zip"], inner)


def expression(random_, given, uses):
    """A random expression over objects and the blueprints that may be named still."""
    size = random_.randrange(1, 4)
    parts = []
    for _ in range(size):
        free = [named for named in given if uses[named.path] < 4]
        if free and random_.random() < 0.7:
            named = random_.choice(free[-4:])
            uses[named.path] += 1
            parts.append(rebuilt(named))
        else:
            parts.append(Leaf(random_.choice(list(OBJECTS))))
    whole = parts[0]
    for part in parts[1:]:
        whole = joined(random_, whole, part)
    for _ in range(random_.randrange(3)):
        whole = under(random_, whole)
    return whole


def doubled(random_, given, uses):
    """A blueprint named twice, by an override that keeps it whole."""
    named = given[-1]
    uses[named.path] += 2
    return Pair("override", rebuilt(named), rebuilt(named))


def namespace(random_):
    """The blueprints of a namespace; the last is the one that is linked."""
    kind = random_.choice(["plain", "plain", "plain", "leaves", "nodes", "depth"])
    count = random_.randrange(2, 13)
    given, uses = [], {}

    def add(body):
        named = Named(f"/b/{len(given)}", body)
        given.append(named)
        uses[named.path] = 0

    if kind == "depth":
        chain = random_.randrange(18, 31)
        add(Leaf("/lib"))
        for _ in range(chain):
            add(rebuilt(given[-1]))
    if kind == "nodes":
        add(frozen(random_.randrange(40, 60), "malloc", Leaf("/lib")))
        for _ in range(6):
            add(doubled(random_, given, uses))
    for k in range(count if kind == "plain" else min(count, 5)):
        is_doubling = kind == "leaves" and given
        add((doubled if is_doubling else expression)(random_, given, uses))
    if kind == "leaves":
        while len(given) < 12 and random_.random() < 0.85:
            add(doubled(random_, given, uses))
    return given


def row(number, given):
    texts = [f"{named.path} (image (no_entry) {named.body.text()})" for named in given[:-1]]
    body = given[-1].body
    published = " & ".join([FILES, *texts, f"/m (image (no_entry) {body.text()})"])
    return f"sharing {number} | {published} | /m | {wanted(rebuilt(body))}"


def rows(count):
    random_ = random.Random(1993)
    return [row(number, namespace(random_)) for number in range(count)]


def main():
    if sys.argv[1] == "--rows":
        what = "blueprints that share others, beside plain descent"
        table.write("tests/dags.py --rows", what, rows(1500)[::25])
        return
    count = int(sys.argv[2]) if len(sys.argv) > 2 else 1500
    made = rows(count)
    table.run(sys.argv[1], made)
    kinds = [line.split("| line refused ")[1].split()[0] for line in made if "| line " in line]
    codes = ("L3", "L4", "L5", "L6", "L7", "L8", "L11")
    refusals = ", ".join(f"{kinds.count(kind)} {kind}" for kind in codes)
    print(f"{len(made)} namespaces agree, {len(made) - len(kinds)} linked; refused {refusals}")


if __name__ == "__main__":
    main()
