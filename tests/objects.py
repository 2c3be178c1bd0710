#!/usr/bin/env python3
"""Writes the objects of crates/omosd_cases/data that hands wouldn't lay out byte by byte, and the
images that are wanted of them, and the objects of crates/link_cases/data.

Objects follow the System V gABI, chapter 4, and the plain objects of docs/FORMATS.md; an image is
written from the addresses that the comment beside it works out, not by a linker.

    tests/objects.py
"""

import struct
from pathlib import Path

PAGE = 4096
BASE = 0x400000


def plain(code, align, symbols, relas):
    """A plain object: section 1 code, 2 relocations, 3 symbols, 4 strings."""
    strings = b"\0"
    table = bytes(24)
    for name, offset in symbols:
        at = len(strings)
        strings += name.encode() + b"\0"
        if offset is None:
            table += struct.pack("<IBBHQQ", at, 0x10, 0, 0, 0, 0)
        elif offset == "weak":
            table += struct.pack("<IBBHQQ", at, 0x20, 0, 0, 0, 0)
        else:
            table += struct.pack("<IBBHQQ", at, 0x12, 0, 1, offset, 0)
    entries = b"".join(
        struct.pack("<QQq", offset, symbol << 32 | kind, addend)
        for offset, kind, symbol, addend in relas
    )
    sections = [
        (0, 0, b"", 0, 0, 0, 0),
        (1, 6, code, 0, 0, align, 0),
        (4, 0x40, entries, 3, 1, 8, 24),
        (2, 0, table, 4, 1, 8, 24),
        (3, 0, strings, 0, 0, 1, 0),
    ]
    return object_of(sections)


def object_of(sections):
    """An object of these sections: type, flags, content, link, info, align, entry size.

    The content is bytes, or a size, or an offset and a size where the bytes stand elsewhere."""
    body = b""
    headers = b""
    for sh_type, flags, content, link, info, align, entry in sections:
        if sh_type == 0:
            headers += bytes(64)
            continue
        body += bytes(-(64 + len(body)) % 8)
        if isinstance(content, bytes):
            offset, size = 64 + len(body), len(content)
            body += content
        else:
            offset, size = content if isinstance(content, tuple) else (64 + len(body), content)
        headers += struct.pack(
            "<IIQQQQIIQQ", 0, sh_type, flags, 0, offset, size, link, info, align, entry
        )
    body += bytes(-(64 + len(body)) % 8)
    ehdr = b"\x7fELF\x02\x01\x01" + bytes(9) + struct.pack(
        "<HHIQQQIHHHHHH", 1, 62, 1, 0, 0, 64 + len(body), 0, 64, 0, 0, 64, len(sections), 0
    )
    return ehdr + body + headers


def image(entry, groups, pages):
    """A file: the header page for these groups (flags, begin, file size, size), and the pages."""
    head = b"\x7fELF\x02\x01\x01" + bytes(9) + struct.pack(
        "<HHIQQQIHHHHHH", 2, 62, 1, entry, 64, 0, 0, 64, 56, len(groups) + 1, 0, 0, 0
    )
    for flags, begin, filesz, memsz in groups:
        at = BASE + begin
        head += struct.pack("<IIQQQQQQ", 1, flags, PAGE + begin, at, at, filesz, memsz, PAGE)
    head += struct.pack("<IIQQQQQQ", 0x6474E551, 6, 0, 0, 0, 0, 0, 16)
    return b"".join(p + bytes(-len(p) % PAGE) for p in [head] + pages)


def twelve(more=()):
    """The sections that C compilers commonly write for `int n`, `get` and `step`."""
    strings = b"\0get\0step\0n\0"
    symbols = bytes(24) + b"".join(
        struct.pack("<IBBHQQ", *symbol)
        for symbol in (
            (0, 0x03, 0, 1, 0, 0),  # section .text
            (1, 0x12, 0, 1, 0, 16),  # get
            (5, 0x12, 0, 1, 16, 32),  # step
            (10, 0x11, 0, 3, 0, 4),  # n
        )
    )
    code = struct.pack("<QQq", 6, 4 << 32 | 2, -4) + struct.pack("<QQq", 22, 4 << 32 | 2, -8)
    unwind = struct.pack("<QQq", 32, 1 << 32 | 2, 0) + struct.pack("<QQq", 64, 1 << 32 | 2, 16)
    return object_of([
        (0, 0, b"", 0, 0, 0, 0),
        (1, 6, b"\x90" * 48, 0, 0, 1, 0),  # .text
        (4, 0x40, code, 10, 1, 8, 24),  # .rela.text
        (1, 3, b"\1\0\0\0", 0, 0, 4, 0),  # .data
        (8, 3, 0, 0, 0, 1, 0),  # .bss
        (1, 0x30, b"\0a compiler\0", 0, 0, 1, 1),  # .comment
        (1, 0, b"", 0, 0, 1, 0),  # .note.GNU-stack
        (7, 2, bytes(32), 0, 0, 8, 0),  # .note.gnu.property
        (0x70000001, 2, bytes(88), 0, 0, 8, 0),  # .eh_frame
        (4, 0x40, unwind, 10, 8, 8, 24),  # .rela.eh_frame
        (2, 0, symbols, 11, 2, 8, 24),  # .symtab
        (3, 0, strings, 0, 0, 1, 0),  # .strtab
        (3, 0, b"\0", 0, 0, 1, 0),  # .shstrtab
        *more,
    ])


NOPS = b"\x90" * 10
CALL = b"\xe8\0\0\0\0\xc3" + NOPS

FILES = {
    # calls what nothing defines
    "call.o": plain(CALL, 16, [("_start", 0), ("malloc", None)], [(1, 4, 2, -4)]),
    # the same call once it has no relocation, or one of type NONE
    "call_unbound.image": image(BASE, [(5, 0, 16, 16)], [CALL]),
    # `print`, which calls `puts`, and no `_start`
    "user.o": plain(
        b"\xe8\0\0\0\0\xc3\x90\x90\xc3" + b"\x90" * 7, 16,
        [("print", 8), ("puts", None)], [(1, 4, 2, -4)],
    ),
    # S + A is 0x400000 - 4194305 = -1, which no 32 bits hold without a sign
    "overflow.o": plain(CALL, 16, [("_start", 0)], [(1, 10, 1, -4194305)]),
    # two definitions of one name
    "twice.o": plain(b"\xc3", 1, [("_start", 0), ("a", 0), ("a", 0)], []),
    # 5 bytes of code before 8 MiB of zeros: 1 + 2,048 pages
    "zeros.o": object_of([
        (0, 0, b"", 0, 0, 0, 0),
        (1, 6, b"\xe9\xfb\xff\xff\xff", 0, 0, 1, 0),
        (8, 3, 8388608, 0, 0, 1, 0),
        (2, 0, bytes(24) + struct.pack("<IBBHQQ", 1, 0x12, 0, 1, 0, 0), 4, 1, 8, 24),
        (3, 0, b"\0_start\0", 0, 0, 1, 0),
    ]),
    # variables x and y at 0x401000 and 0x401008; the code uses the slots of x, y and x. The slots
    # follow the variables: at 0x401010 the address of x, at 0x401018 that of y. A field at
    # 0x400003 holds 0x401010 - 4 - 0x400003 = 0x1009, one at 0x40000a 0x401018 - 4 - 0x40000a =
    # 0x100a, and one at 0x400011 0x401010 - 4 - 0x400011 = 0xffb.
    "slots.o": object_of([
        (0, 0, b"", 0, 0, 0, 0),
        (1, 6, bytes(32), 0, 0, 16, 0),
        (1, 3, bytes(16), 0, 0, 8, 0),
        (4, 0x40, b"".join(
            struct.pack("<QQq", at, symbol << 32 | 42, -4) for at, symbol in ((3, 2), (10, 3), (17, 2))
        ), 4, 1, 8, 24),
        (2, 0, bytes(24) + b"".join(
            struct.pack("<IBBHQQ", name, info, 0, section, value, 0)
            for name, info, section, value in ((1, 0x12, 1, 0), (8, 0x11, 2, 0), (10, 0x11, 2, 8))
        ), 5, 1, 8, 24),
        (3, 0, b"\0_start\0x\0y\0", 0, 0, 1, 0),
    ]),
    "slots.image": image(
        BASE, [(5, 0, 32, 32), (6, PAGE, 32, 32)],
        [
            bytes(3) + bytes([9, 0x10, 0, 0]) + bytes(3) + bytes([10, 0x10, 0, 0]) + bytes(3)
            + bytes([0xFB, 0x0F, 0, 0]) + bytes(11),
            bytes(16) + struct.pack("<QQ", 0x401000, 0x401008),
        ],
    ),
    # a weak name that nothing defines is 0: a field of 8 bytes at 8 holds 0, one of 4 at 1 holds
    # 0 - 4 - 0x400001
    "weak.o": plain(bytes(16), 16, [("_start", 0), ("w", "weak")], [(1, 2, 2, -4), (8, 1, 2, 0)]),
    "weak.image": image(
        BASE, [(5, 0, 16, 16)], [b"\0" + bytes([0xFB, 0xFF, 0xBF, 0xFF]) + bytes(11)]
    ),
    # two fields that overlap: S + A is 0x400000 in 8 bytes at 0, then in 4 bytes at 2; the later
    # one wins where both stand
    "overlap.o": plain(bytes(16), 16, [("_start", 0)], [(0, 1, 1, 0), (2, 10, 1, 0)]),
    "overlap.image": image(
        BASE, [(5, 0, 16, 16)], [bytes([0, 0, 0, 0, 0x40, 0, 0, 0]) + bytes(8)]
    ),
    # two sections of 32,768 relocations each, which share their bytes behind the file's end: zeros,
    # of type NONE, once the file is padded
    "many.o": object_of([
        (0, 0, b"", 0, 0, 0, 0),
        (1, 6, CALL, 0, 0, 16, 0),
        (4, 0x40, (1024, 32768 * 24), 4, 1, 8, 24),
        (4, 0x40, (1024, 32768 * 24), 4, 1, 8, 24),
        (2, 0, bytes(24) + struct.pack("<IBBHQQ", 1, 0x12, 0, 1, 0, 0), 5, 1, 8, 24),
        (3, 0, b"\0_start\0", 0, 0, 1, 0),
    ]),
    # what compilers write, and the same with a section 13 of type GROUP
    "twelve.o": twelve(),
    "group.o": twelve([(17, 0, struct.pack("<II", 1, 1), 10, 2, 4, 4)]),
    # no byte is loaded, so there are no pages and no program header but the stack's
    "empty.image": image(BASE, [], []),
    # each group, with alignments; _start stands in the second piece of code, at its offset 1.
    # Code: 3 bytes, then from 16 on 2. Consts at 0x401000: 5. Vars at 0x402000: 1, then from 8
    # on 8, which hold the address of the constants plus 4. Zeros at 0x403000: 100.
    "groups.o": object_of([
        (0, 0, b"", 0, 0, 0, 0),
        (1, 6, b"\x01\x02\x03", 0, 0, 1, 0),
        (8, 3, 100, 0, 0, 32, 0),
        (1, 3, b"\x04", 0, 0, 1, 0),
        (1, 2, b"\x05\x06\x07\x08\x09", 0, 0, 4, 0),
        (1, 6, b"\x0a\x0b", 0, 0, 16, 0),
        (14, 3, bytes(8), 0, 0, 8, 0),
        (4, 0x40, struct.pack("<QQq", 0, 1 << 32 | 1, 4), 8, 6, 8, 24),
        (2, 0, bytes(24) + struct.pack("<IBBHQQ", 0, 3, 0, 4, 0, 0)
         + struct.pack("<IBBHQQ", 1, 0x10, 0, 5, 1, 0), 9, 2, 8, 24),
        (3, 0, b"\0_start\0", 0, 0, 1, 0),
    ]),
    "groups.image": image(
        BASE + 17,
        [(5, 0, 18, 18), (4, PAGE, 5, 5), (6, 2 * PAGE, 16, 16), (6, 3 * PAGE, 0, 100)],
        [
            b"\x01\x02\x03" + bytes(13) + b"\x0a\x0b",
            b"\x05\x06\x07\x08\x09",
            b"\x04" + bytes(7) + struct.pack("<Q", 0x401004),
        ],
    ),
}

LINK_FILES = {
    "start.o": plain(b"\xe9\xfb\xff\xff\xff", 1, [("_start", 0)], []),
    "lib.o": plain(
        b"\xc3" + b"\x90" * 7 + b"\xe8\0\0\0\0\xc3\x90\x90", 16,
        [("malloc", 0), ("grab", 8)], [(9, 4, 1, -4)],
    ),
    "new.o": plain(b"\xc3" + b"\x90" * 15, 16, [("malloc", 0)], []),
    "trace.o": plain(CALL, 16, [("malloc", 0), ("old_malloc", None)], [(1, 4, 2, -4)]),
    "user.o": FILES["user.o"],
    "twelve.o": FILES["twelve.o"],
    "ab.o": plain(b"\xc3\xc3", 1, [("b", 0), ("a", 1)], []),
    "ba.o": plain(b"\xc3\xc3", 1, [("a", 0), ("b", 1)], []),
}


def main():
    crates = Path(__file__).resolve().parent.parent / "crates"
    for crate, files in (("omosd_cases", FILES), ("link_cases", LINK_FILES)):
        for name, content in files.items():
            (crates / crate / "data" / name).write_bytes(content)


if __name__ == "__main__":
    main()
