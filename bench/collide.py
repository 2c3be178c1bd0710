#!/usr/bin/env python3
"""Writes objects whose names and targets were chosen to share a hash, and others as large whose
were not, into the current folder, for bench/collide.sh.

    bench/collide.py TESTS      TESTS is the folder tests/, whose objects.py lays objects out

Each KIND has KIND.o, and KIND-0.o to KIND-7.o, which have as much together.

    names-random    names drawn by lot
    names-alike     names that a multiplying hasher with a public seed gives one hash
    names-steered   names that such a hasher brings to few places of a table whatever its seed, if
                    only its multiplier is public
    slots-random    references to slots of absolute addresses drawn by lot
    slots-alike     to such as a public seed brings to one place of a table
"""

import importlib.util
import random
import struct
import sys
from pathlib import Path

spec = importlib.util.spec_from_file_location("objects", Path(sys.argv[1]) / "objects.py")
objects = importlib.util.module_from_spec(spec)
spec.loader.exec_module(objects)

WORD = 2**64 - 1
MULTIPLIER = 0x9E37_79B9_7F4A_7C15
START = 0x243F_6A88_85A3_08D3
LEGAL = bytes(c for c in [*range(0x21, 0x7F), *range(0x80, 0x100)] if c not in b'();"')
NAMES = 16000
SLOTS = 8000
CODE = b"\xb8\x3c\0\0\0\x31\xff\x0f\x05" + b"\x90" * 23  # exit(0); the last fields are relocated
AT = 16

lot = random.Random(1)


def drawn(count):
    return bytes(lot.choice(LEGAL) for _ in range(count))


def is_legal(name):
    return all(c in LEGAL for c in name)


def number(some):
    return int.from_bytes(some, "little")


def folded(a, b):
    product = a * b
    return (product & WORD) ^ (product >> 64)


def alike(count):
    """Names of 32 bytes: the first 16 make a state that the next 8 cancel, whatever follows."""
    while True:
        head = drawn(16)
        state = folded(number(head[:8]) ^ (START + 32), number(head[8:]) ^ MULTIPLIER)
        head += state.to_bytes(8, "little")
        if is_legal(head):
            return [head + b"%08d" % n for n in range(count)]


def steered(count):
    """Names of 16 bytes: the last 8 leave two bits of the multiplier, and the first 8 differ in bits
    that two shifts bring nowhere near the lowest ones of a hash."""
    tail = (MULTIPLIER ^ 1 << 6 ^ 1 << 24).to_bytes(8, "little")
    bits = [22, 23, 24, 25, 26, 54, 55, 56, 57, 58]
    names = []
    while len(names) < count:
        first = number(drawn(8))
        for n in range(2 ** len(bits)):
            changed = first
            for k, bit in enumerate(bits):
                changed ^= (n >> k & 1) << bit
            name = changed.to_bytes(8, "little") + tail
            if is_legal(name):
                names.append(name)
    return list(dict.fromkeys(names))[:count]


def values_alike(count):
    """Addresses whose hashes have the same ten bits lowest."""
    found = []
    factor = MULTIPLIER ^ 16
    value = 0
    while len(found) < count:
        value += 1
        product = (START ^ value) * factor
        half = product ^ product >> 64
        if not (half ^ half >> 32) & 1023:
            found.append(value)
    return found


def symbol_table(symbols, locals_too):
    """Two sections: the symbols, of a name, an info, a section and a value, and their strings."""
    strings, table = b"\0", bytes(24)
    for name, info, section, value in symbols:
        table += struct.pack("<IBBHQQ", len(strings) if name else 0, info, 0, section, value, 0)
        strings += name + b"\0" if name else b""
    return (2, 0, table, 4, 1 + locals_too, 8, 24), (3, 0, strings, 0, 0, 1, 0)


def object_of(names, values):
    """An object that defines the names, and refers to a slot of each value once."""
    symbols = [(b"", 0, 0xFFF1, value) for value in values]
    symbols += [(name, 0x12, 1, 0) for name in names]
    relas = b"".join(struct.pack("<QQq", AT, n + 1 << 32 | 9, -4) for n in range(len(values)))
    return objects.object_of(
        [
            (0, 0, b"", 0, 0, 0, 0),
            (1, 6, CODE, 0, 0, 16, 0),
            (4, 0x40, relas, 3, 1, 8, 24),
            *symbol_table(symbols, len(values)),
        ]
    )


def write(kind, names, values):
    """The object alone starts at _start; each of the eight parts defines a name of its own."""
    Path(f"{kind}.o").write_bytes(object_of([b"_start", *names], values))
    for k in range(8):
        own = b"_start" if k == 0 else b"part%d" % k
        Path(f"{kind}-{k}.o").write_bytes(object_of([own, *names[k::8]], values[k::8]))


write("names-random", [drawn(24) + b"%08d" % n for n in range(NAMES)], [])
write("names-alike", alike(NAMES), [])
write("names-steered", steered(NAMES), [])
write("slots-random", [], lot.sample(range(2**23), SLOTS))
write("slots-alike", [], values_alike(SLOTS))
