#!/usr/bin/env python3
"""Compares how blueprints' texts are read and written with a slow reader of the grammar.

    tests/texts.py LINK_CASES [COUNT]
    tests/texts.py --rows

It makes COUNT images (4,000 where left out; the same each time), writes the tokens of each with odd
blanks, comments and numbers, and spoils half of the texts: a token is left out, doubled, exchanged
or put in, a byte is put in, or the end is cut off. What each is to answer is worked out here. The
reader knows the grammar alone: it keeps the set of all that may still follow, and the canonical
text is the tokens with other blanks. The proved program LINK_CASES then reads them all and says
which answers differ.

With --rows it writes 250 of them, and the blueprints of examples/, behind the other cases of
crates/link_cases/data/cases.txt, and what the program is to print.
"""

import random
import re
import sys
from pathlib import Path

import table

EXAMPLES = Path(__file__).resolve().parent.parent / "examples"

# ---- the grammar

TOKEN = re.compile(
    rb"[ \t\r\n]+|;[^\n]*|(?P<token>[()]|[!#-'*-:<-~\x80-\xff]+)|(?P<barred>.)", re.S
)
PATH = re.compile(rb"(/[A-Za-z0-9._+-]{1,64}){1,16}")
NUMBER = re.compile(rb"0x[0-9a-fA-F]{1,16}|[0-9]{1,20}")
FORMS = [
    ["merge", "EXPR", "EXPR", "EXPRS"],
    ["override", "EXPR", "EXPR"],
    ["rename", "NAME", "NAME", "EXPR"],
    ["restrict", "NAME", "EXPR"],
    ["freeze", "NAME", "EXPR"],
    ["hide", "NAME", "EXPR"],
    ["show", "(", "NAMES", ")", "EXPR"],
    ["copy_as", "NAME", "NAME", "EXPR"],
]
RULES = {
    "IMAGE": [["(", "image", "START", "RANGE", "EXPR", ")"]],
    "START": [[], ["(", "entry", "NAME", ")"], ["(", "no_entry", ")"]],
    "RANGE": [[], ["(", "range", "LO", "HI", ")"]],
    "EXPR": [["PATH"]] + [["(", *form, ")"] for form in FORMS],
    "EXPRS": [[], ["EXPR", "EXPRS"]],
    "NAMES": [[], ["NAME", "NAMES"]],
}
TOP = 2**47 - 4096


def number_of(word):
    if not NUMBER.fullmatch(word):
        return None
    value = int(word, 16 if word.startswith(b"0x") else 10)
    return value if value < 2**64 else None


def suits(symbol, word, low):
    """Whether a token may stand for a symbol of the grammar; `low` is the range's lower end."""
    if symbol in "()" or word in (b"(", b")"):
        return symbol.encode() == word
    if symbol == "NAME":
        return len(word) <= 1024
    if symbol == "PATH":
        return len(word) <= 255 and PATH.fullmatch(word) is not None
    if symbol in ("LO", "HI"):
        value = number_of(word)
        if value is None or value % 4096:
            return False
        return 0x10000 <= value < TOP if symbol == "LO" else low < value <= TOP
    return symbol.encode() == word


def opened(pending):
    """The lists of symbols that these may begin as, each with a token first."""
    if not pending:
        return {()}
    if pending[0] not in RULES:
        return {pending}
    return {found for rule in RULES[pending[0]] for found in opened((*rule, *pending[1:]))}


def deepest(pending):
    """How many parentheses must be open at once until these are through."""
    depth = pending.count(")") - pending.count("(")
    most = depth
    for symbol in pending:
        depth += {"(": 1, ")": -1}.get(symbol, 0)
        most = max(most, depth)
    return most


def canonical(words):
    """The tokens of an image, with the usual blanks and numbers and without the usual header."""
    at = 2
    if words[at : at + 2] == [b"(", b"entry"]:
        start, at = words[at : at + 4], at + 4
    elif words[at : at + 2] == [b"(", b"no_entry"]:
        start, at = words[at : at + 3], at + 3
    else:
        start = []
    bounds = []
    if words[at : at + 2] == [b"(", b"range"]:
        bounds, at = [number_of(word) for word in words[at + 2 : at + 4]], at + 5
    if start[2:3] == [b"_start"]:
        start = []
    if bounds == [0x400000, 0x40000000]:
        bounds = []
    if bounds:
        bounds = [b"(", b"range", *(b"0x%x" % bound for bound in bounds), b")"]
    joined = b" ".join([*words[:2], *start, *bounds, *words[at:]])
    return joined.replace(b"( ", b"(").replace(b" )", b")")


def answer(text):
    """The canonical text, or the line of the first fault without its newline."""
    if len(text) > 65536:
        return b"refused B1"
    tokens = []
    for found in TOKEN.finditer(text):
        if found["barred"]:
            return b"refused B2 %d" % found.start()
        if found["token"]:
            tokens.append((found["token"], found.start()))
    pendings, low = {("IMAGE",)}, 0
    for word, place in tokens:
        heads = {head for pending in pendings for head in opened(pending)}
        right = {head[1:] for head in heads if head and suits(head[0], word, low)}
        pendings = {pending for pending in right if deepest(pending) <= 64}
        if not pendings:
            calls = {head[0] for head in heads if head} & {"LO", "HI"}
            if right and word == b"(":
                return b"refused B4 %d" % place
            if calls and word not in (b"(", b")"):
                return b"refused B%d %d" % (5 if number_of(word) is None else 6, place)
            return b"refused B3 %d" % place
        if any(head and head[0] == "LO" for head in heads):
            low = number_of(word) or 0
    if any(() in opened(pending) for pending in pendings):
        return canonical([word for word, _ in tokens])
    return b"refused B3 %d" % len(text)


# ---- texts

NAMES = [b"malloc", b"a", b"_start", b"image", b"merge", b"show", b"/a", b"0x10"]
NAMES += [b"x|y", b"\xc3\xa9", b"{&}", b"\\n"]
PATHS = [b"/a", b"/lib/c", b"/o/1", b"/A.b_c+d-e", b"/..", b"/" + b"p" * 64]
BLANKS = [b" "] * 8 + [b"  ", b"\n", b"\t", b"\r\n", b" ;\n", b";(\n ", b";\x00\"\xff)\r\n"]
LOWS = [0x10000, 0x400000, 0x1234000, TOP - 4096]
HIGHS = [0x40000000, 0x7FFF0000000, TOP]
ODD = [b"(", b")", b"/", b"x", b"0x10000", b"range", b"merge", b"show", b"entry", b"/a"]
NUMBERS = [b"0", b"4096", b"0x10001", b"0x10000", b"0x%x" % TOP, b"18446744073709551615"]
NUMBERS += [b"18446744073709551616", b"0x", b"0X10000", b"x", b"-1", b"0x01000000000000000"]
BYTES = [b'"', b"\x00", b"\x7f", b"\x0b", b" ", b"\n", b";", b"(", b"\x80", b"/"]


def spelled(random_, number):
    """A number in one of its spellings."""
    shown = b"%x" % number
    forms = [b"0x" + shown, b"0x" + shown.upper(), b"0x" + shown.zfill(16), b"%d" % number]
    return random_.choice([*forms, b"%020d" % number])


def expression(random_, size):
    """The tokens of an expression with so many operators."""
    if size == 0:
        return [random_.choice(PATHS)]
    form = random_.choice(FORMS)
    operands = form.count("EXPR") + (random_.randrange(3) if "EXPRS" in form else 0)
    split = sorted(random_.randrange(size) for _ in range(operands - 1))
    sizes = [b - a for a, b in zip([0, *split], [*split, size - 1])]
    tokens = [b"("]
    for symbol in form:
        if symbol == "EXPR":
            tokens += expression(random_, sizes.pop())
        elif symbol == "EXPRS":
            while sizes:
                tokens += expression(random_, sizes.pop())
        elif symbol in ("NAME", "NAMES"):
            count = random_.randrange(4) if symbol == "NAMES" else 1
            tokens += [random_.choice(NAMES) for _ in range(count)]
        else:
            tokens.append(symbol.encode())
    return [*tokens, b")"]


def image(random_):
    """The tokens of an image."""
    tokens = [b"(", b"image"]
    start = random_.randrange(3)
    if start == 1:
        tokens += [b"(", b"entry", random_.choice(NAMES), b")"]
    elif start == 2:
        tokens += [b"(", b"no_entry", b")"]
    if random_.randrange(2):
        low = random_.choice(LOWS)
        high = random_.choice([high for high in HIGHS if high > low])
        tokens += [b"(", b"range", spelled(random_, low), spelled(random_, high), b")"]
    size = random_.choice([0, 1, 2, 3, 5, 8])
    if random_.randrange(10) == 0:
        deep = random_.randrange(55, 66)
        tokens += [b"(", b"hide", b"a"] * deep
        return [*tokens, *expression(random_, size), *[b")"] * (deep + 1)]
    return [*tokens, *expression(random_, size), b")"]


def joined(random_, tokens):
    """The tokens with odd blanks: between two words there is one at least."""
    text = b""
    for k, token in enumerate(tokens):
        words = k > 0 and {token, tokens[k - 1]}.isdisjoint({b"(", b")"})
        if words or random_.randrange(2):
            text += random_.choice(BLANKS)
        text += token
    return text + random_.choice([b"", b"\n", b";", b" ;x\xff", b"\t\r"])


def spoilt(random_, tokens):
    """A text with something wrong, as a rule."""
    tokens = list(tokens)
    at = random_.randrange(len(tokens))
    kind = random_.randrange(7)
    if kind == 0:
        del tokens[at]
    elif kind == 1:
        tokens.insert(at, tokens[at])
    elif kind == 2:
        tokens[at] = random_.choice(ODD)
    elif kind == 3:
        tokens.insert(at, random_.choice(ODD))
    elif kind == 4 and b"range" in tokens:
        tokens[tokens.index(b"range") + random_.choice([1, 2])] = random_.choice(NUMBERS)
    text = joined(random_, tokens)
    at = random_.randrange(len(text) + 1)
    if kind == 5:
        return text[:at] + random_.choice(BYTES) + text[at:]
    return text[:at] if kind == 6 else text


def shown(text):
    """The text as a column of the table."""
    named = {10: r"\n", 13: r"\r", 9: r"\t"}
    plain = {byte: chr(byte) for byte in range(0x20, 0x7F) if byte not in b"\\|&"}
    column = "".join((named | plain).get(byte, rf"\x{byte:02x}") for byte in text)
    if column.startswith(" "):
        column = r"\x20" + column[1:]
    if column.endswith((" ", ".o")):
        column = column[:-1] + rf"\x{text[-1]:02x}"
    return column


def row(name, text):
    found = answer(text)
    kind = "line" if found.startswith(b"refused") else "text"
    return f"{name} | /m {shown(text)} | text /m | {kind} {shown(found)}"


def examples():
    """A row for each blueprint of examples/."""
    for path in sorted(EXAMPLES.glob("*/*.bp")):
        yield row(f"the text of {path.relative_to(EXAMPLES.parent)}", path.read_bytes())


def texts(count):
    random_ = random.Random(1936)
    for number in range(count):
        tokens = image(random_)
        yield spoilt(random_, tokens) if number % 2 else joined(random_, tokens)


def main():
    if sys.argv[1] == "--rows":
        made = [row(f"text {number}", text) for number, text in enumerate(texts(250))]
        made = [*examples(), *made]
        table.write("tests/texts.py --rows", "texts beside a slow reader of the grammar", made)
        return
    count = int(sys.argv[2]) if len(sys.argv) > 2 else 4000
    rows = [row(f"text {number}", text) for number, text in enumerate(texts(count))]
    table.run(sys.argv[1], rows)
    kinds = [line.split()[-2] for line in rows if "| line refused B" in line]
    refusals = ", ".join(f"{kinds.count(kind)} {kind}" for kind in ("B2", "B3", "B4", "B5", "B6"))
    print(f"{len(rows)} texts agree, {len(rows) - len(kinds)} of them images; refused {refusals}")


main()
