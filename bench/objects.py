#!/usr/bin/env python3
"""Writes large objects, and their images, into the current folder, for bench/objects.sh.

    bench/objects.py TESTS      TESTS is the folder tests/, whose objects.py lays objects out
"""

import importlib.util
import struct
import sys
from pathlib import Path

spec = importlib.util.spec_from_file_location("objects", Path(sys.argv[1]) / "objects.py")
objects = importlib.util.module_from_spec(spec)
spec.loader.exec_module(objects)

# exit(7); a call whose field the relocations write; nops
EXIT = b"\xb8\x3c\0\0\0\xbf\x07\0\0\0\x0f\x05"
CODE = EXIT + b"\xe8\0\0\0\0" + b"\x90" * 15
AT = len(EXIT) + 1


def with_call(target):
    """The code once the call's field leads to this offset."""
    return CODE[:AT] + struct.pack("<i", target - AT - 4) + CODE[AT + 4 :]


def write(name, content, image):
    Path(name).write_bytes(content)
    Path(name + ".image").write_bytes(image)


def image_of(code):
    return objects.image(objects.BASE, [(5, 0, len(code), len(code))], [code])


for count in (20000, 40000):
    relas = [(AT, 4, 1, -4)] * count
    write(f"global-{count}.o", objects.plain(CODE, 16, [("_start", 0)], relas), image_of(with_call(0)))
    local = bytearray(objects.plain(CODE, 16, [("_start", 0), ("here", 0)], [(AT, 4, 2, -4)] * count))
    at = local.index(struct.pack("<IBBHQQ", 8, 0x12, 0, 1, 0, 0))
    local[at + 4] = 2  # LOCAL, FUNC
    write(f"local-{count}.o", bytes(local), image_of(with_call(0)))
for count in (12000, 24000):
    names = [("_start", 0)] + [(f"f{n:08}", 0) for n in range(count)]
    exports = objects.plain(CODE, 16, names, [])
    write(f"exports-{count}.o", exports, image_of(CODE))
    symbols = bytearray(exports)
    at = symbols.index(struct.pack("<IBBHQQ", 8, 0x12, 0, 1, 0, 0))
    for k in range(count):
        symbols[at + 24 * k + 4] = 2  # LOCAL, FUNC
    write(f"locals-{count}.o", bytes(symbols), image_of(CODE))
