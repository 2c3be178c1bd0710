"""Blueprints as terms whose names are descended at each use, for sweep.py and dags.py."""

import itertools

# size, alignment, exports, and the references of calls: field offset and name
OBJECTS = {
    "/lib": (16, 16, {"malloc": 0, "grab": 8}, [(9, "malloc")]),
    "/new": (16, 16, {"malloc": 0}, []),
    "/trace": (16, 16, {"malloc": 0}, [(1, "old_malloc")]),
    "/user": (16, 16, {"print": 8}, [(1, "puts")]),
    "/ab": (2, 1, {"b": 0, "a": 1}, []),
}


class Refused(Exception):
    pass


class Leaf:
    def __init__(self, path):
        self.path = path

    def text(self):
        return self.path

    def number(self, sites):
        self.site = sites.node()
        self.leaf = sites.leaf(self.site)
        return [self]

    def define(self, name):
        exports = OBJECTS[self.path][2]
        return (self.leaf, exports[name]) if name in exports else None

    def state(self, leaf, k):
        references = OBJECTS[self.path][3]
        return ("open", references[k][1]) if leaf == self.leaf and k < len(references) else None

    def references(self):
        return [(self.leaf, k) for k in range(len(OBJECTS[self.path][3]))]

    def names(self):
        return set(OBJECTS[self.path][2])

    def check(self):
        pass


class Sites:
    """Numbers the nodes of a blueprint and the leaves of the whole, up to the linker's limits."""

    def __init__(self, path="/m", above=None):
        self.path, self.count = path, itertools.count()
        self.depth = 1 if above is None else above.depth + 1
        self.nodes = itertools.count() if above is None else above.nodes
        self.leaves = itertools.count() if above is None else above.leaves

    def node(self):
        site = f"{self.path} {next(self.count)}"
        if next(self.nodes) >= 4096:
            raise Refused(f"L4 {site}")
        return site

    def leaf(self, site):
        leaf = next(self.leaves)
        if leaf >= 256:
            raise Refused(f"L4 {site}")
        return leaf

    def inside(self, path):
        """The sites of the blueprint under a path, which is a node here."""
        if self.depth >= 32:
            raise Refused(f"L3 {self.path} {next(self.count)} {path}")
        self.node()
        return Sites(path, self)


class Pair:
    def __init__(self, word, left, right):
        self.word, self.left, self.right = word, left, right

    def text(self):
        return f"({self.word} {self.left.text()} {self.right.text()})"

    def number(self, sites):
        self.site = sites.node()
        return self.left.number(sites) + self.right.number(sites)

    def define(self, name):
        first, second = (self.left, self.right) if self.word == "merge" else (self.right, self.left)
        found = first.define(name)
        return found if found is not None else second.define(name)

    def state(self, leaf, k):
        return self.left.state(leaf, k) or self.right.state(leaf, k)

    def references(self):
        return self.left.references() + self.right.references()

    def names(self):
        return self.left.names() | self.right.names()

    def check(self):
        self.left.check()
        self.right.check()
        if self.word == "merge":
            both = [n for n in self.names() if self.left.define(n) and self.right.define(n)]
            if both:
                raise Refused(f"L5 {self.site} {min(both, key=str.encode)}")


class One:
    def __init__(self, word, words, inner):
        self.word, self.words, self.inner = word, words, inner

    def text(self):
        words = " ".join(self.words)
        return f"({self.word} {f'({words})' if self.word == 'show' else words} {self.inner.text()})"

    def number(self, sites):
        self.site = sites.node()
        return self.inner.number(sites)

    def define(self, name):
        inner, words = self.inner, self.words
        if self.word == "rename":
            if inner.define(words[0]) is None:
                return inner.define(name)
            if name == words[1]:
                return inner.define(words[0])
            return None if name == words[0] else inner.define(name)
        if self.word in ("restrict", "hide"):
            return None if name == words[0] else inner.define(name)
        if self.word == "show":
            return inner.define(name) if name in words else None
        if self.word == "copy_as" and name == words[1]:
            return inner.define(words[0])
        return inner.define(name)

    def state(self, leaf, k):
        state = self.inner.state(leaf, k)
        if state is None or state[0] == "bound":
            return state
        name, words = state[1], self.words
        if self.word == "rename" and name == words[0]:
            return ("open", words[1])
        if self.word in ("freeze", "hide") and name == words[0]:
            return ("bound", self.inner.define(name))
        if self.word == "show" and name not in words and self.inner.define(name):
            return ("bound", self.inner.define(name))
        return state

    def references(self):
        return self.inner.references()

    def names(self):
        return self.inner.names() | set(self.words)

    def check(self):
        self.inner.check()
        inner, words = self.inner, self.words
        if self.word == "rename":
            opened = any(inner.state(*r) == ("open", words[0]) for r in inner.references())
            if inner.define(words[0]) is None and not opened:
                raise Refused(f"L6 {self.site} {words[0]}")
            if words[0] != words[1] and inner.define(words[0]) and inner.define(words[1]):
                raise Refused(f"L8 {self.site} {words[1]}")
            return
        for name in words if self.word == "show" else words[:1]:
            if inner.define(name) is None:
                raise Refused(f"L7 {self.site} {name}")
        if self.word == "copy_as" and inner.define(words[1]):
            raise Refused(f"L8 {self.site} {words[1]}")


class Named:
    """A blueprint under its path: what its expression is, each time it is named."""

    def __init__(self, path, body):
        self.path, self.body = path, body

    def text(self):
        return self.path

    def number(self, sites):
        return self.body.number(sites.inside(self.path))

    def define(self, name):
        return self.body.define(name)

    def state(self, leaf, k):
        return self.body.state(leaf, k)

    def references(self):
        return self.body.references()

    def names(self):
        return self.body.names()

    def check(self):
        self.body.check()


def rebuilt(term):
    """The same term anew, since a term used twice is numbered twice."""
    if isinstance(term, Leaf):
        return Leaf(term.path)
    if isinstance(term, Named):
        return Named(term.path, rebuilt(term.body))
    if isinstance(term, Pair):
        return Pair(term.word, rebuilt(term.left), rebuilt(term.right))
    return One(term.word, term.words, rebuilt(term.inner))


def wanted(term):
    """What a link of the term at 0x400000 must answer, as a column of the table of cases."""
    try:
        leaves = term.number(Sites())
        term.check()
    except Refused as refusal:
        return f"line refused {refusal}"
    places, end = [], 0
    for leaf in leaves:
        size, align = OBJECTS[leaf.path][:2]
        place = -(-end // align) * align
        places.append(place)
        end = place + size
    wishes = [f"size {4096 * (1 + -(-end // 4096))}"]
    for leaf, k in term.references():
        kind, value = term.state(leaf, k)
        target = value if kind == "bound" else term.define(value)
        if target is None:
            return f"line refused L11 {leaf} {k} {value}"
        field = places[leaf] + OBJECTS[leaves[leaf].path][3][k][0]
        distance = places[target[0]] + target[1] - field - 4
        hexes = (distance % 2**32).to_bytes(4, "little").hex(" ")
        wishes.append(f"at {0x400000 + field:x} {hexes}")
    return " & ".join(wishes)
