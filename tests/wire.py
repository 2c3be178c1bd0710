#!/usr/bin/env python3
"""Makes the cases of crates/wire_cases and what each must print, from the formats alone.

    tests/wire.py [WIRE_CASES]   compares data/cases.txt and stdout with what is made here, and with
                                 what the program prints
    tests/wire.py write          writes both files

The frames are built and read by tests/frames.py, runs of the client by tests/runs.py: from the text
of docs/FORMATS.md, whose table of codes they read, and with no call of the program. The examples of
the document are cases too, and each must be what its row says. Ends with 'N passed, M failed'.
"""

import re
import subprocess
import sys
from itertools import zip_longest
from pathlib import Path

from frames import CODES, KINDS, LONGEST_REPLY, LONGEST_REQUEST, REQUESTS, field, framed, front
from frames import number, reply_frame, reply_in, reply_line, request_frame, stream_line
from runs import REPLIES, client_rows

TOP = Path(__file__).resolve().parent.parent
CRATE = TOP / "crates/wire_cases"
DOCUMENT = TOP / "docs/FORMATS.md"
HEAD = """\
# The cases of wire_cases, a line each, and what is to come of them in ../stdout: both were made by
# tests/wire.py. Bytes are hexadecimal, `COUNT*BYTE` for so many of one byte, `-` for none.
#
#   stream SIZE.. | NAME | BYTES            a stream of requests, in pieces of each size
#   reply | NAME | BYTES                    the frame of a reply
#   client | NAME | WORDS | FILE | BYTES    the client's words, what its file `f` holds, or `none`,
#                                           and what comes from the server
#   faults | NAME | WORDS | FILE | BYTES    the same, and then with each read failing in turn, the
#                                           link ending before each byte, each write and each print
#                                           failing, and the first call of the files
"""


def spelled(data):
    """Bytes as the table has them, a run of 16 and more of one byte as a fill."""
    words, at = [], 0
    for run in re.finditer(rb"(.)\1{15,}", data, re.S):
        words += [data[at : run.start()].hex(), f"{len(run[0])}*{run[1].hex()}"]
        at = run.end()
    return " ".join(word for word in words + [data[at:].hex()] if word) or "-"


def stream(name, *frames):
    text = " ".join(spelled(frame) for frame in frames)
    return "stream 1 2 3 7 4096", name, text, stream_line(b"".join(frames))


def reply(name, frame):
    return "reply", name, spelled(frame), reply_line(frame)


# ---- streams


def sample(word):
    _, has_path, has_content = REQUESTS[KINDS[word]]
    content = {"put": b"\x7fELF", "blueprint": b"(image /a)"}.get(word)
    return (word, *([b"/p"] if has_path else []), *([content] if has_content else []))


def kinds():
    """Each kind whole, one byte short, with one left over, and at each length."""
    for kind, (word, has_path, has_content) in REQUESTS.items():
        whole = request_frame(sample(word))
        length = len(whole) - 4
        yield stream(f"{word}, whole", whole)
        yield stream(f"{word}, its last byte missing", whole[:-1])
        yield stream(f"{word}, and a byte behind it", whole, b"\1")
        yield stream(f"{word}, a byte left over in it", number(4, length + 1), whole[4:], b"\0")
        yield stream(f"{word}, its length one less", number(4, length - 1), whole[4:])
        for size in (0, 1, 2, 3, LONGEST_REQUEST, LONGEST_REQUEST + 1):
            yield stream(f"{word}, the length {size:,}", number(4, size), bytes([kind]), b"\0\0")
        if has_path:
            head = number(4, 7) + bytes([kind])
            for count in (3, 4, 5, 65535):
                yield stream(f"{word} of 7, a path of {count:,}", head, number(2, count), b"/abc")
            longest = (word, b"a" * 65535, *([b""] if has_content else []))
            yield stream(f"{word}, the longest path", request_frame(longest))
            none = (word, b"\0(", *longest[2:])
            yield stream(f"{word}, a path that is none", request_frame(none))
    for kind in (0, 8, 128, 129, 255):
        yield stream(f"the kind {kind}", number(4, 1), bytes([kind]))
        yield stream(f"the kind {kind}, no length", number(4, 0), bytes([kind]))


def large():
    """The longest frame, its last byte missing, and a frame behind it."""
    room = LONGEST_REQUEST - 3 - len(b"/p")
    longest = request_frame(("put", b"/p", b"A" * room))
    yield stream("the longest put, and stats behind it", longest, request_frame(("stats",)))
    yield stream("the longest put, its last byte missing", longest[:-1])


def parts():
    """Streams of several frames, those cut anywhere, and where no frame begins behind others."""
    yield stream("nothing", b"")
    for count in range(1, 5):
        yield stream(f"{count} bytes of a length that begins no frame", number(4, 2)[:count])
    every = [request_frame(sample(word)) for word in KINDS]
    yield stream("one of each", *every)
    yield stream("one of each, and a kind that is none", *every, number(4, 1), b"\x08")
    yield stream("one of each, and a length of 0", *every, number(4, 0))
    link = request_frame(("link", b"/p"))
    for count in range(1, len(link)):
        yield stream(f"a link, and {count} bytes of another", link, link[:count])
    yield stream("40 times stats, and then a length too large", *([every[4]] * 40), b"\1\0\x20\0")
    across = request_frame(("blueprint", b"/p", b" " * 4090))
    yield stream("frames across 4,096 bytes, and a shape that is none behind", across, link, across,
                 request_frame(("put", b"/a", b"\2" * 9000)), link, number(4, 1), b"\3")


# ---- replies


def whole_replies():
    for parts in REPLIES:
        frame = reply_frame(parts)
        yield reply(f"{parts[0]}, whole", frame)
        yield reply(f"{parts[0]}, a byte left over", framed(frame[4], frame[5:] + b"\0"))
        if len(frame) > 5:
            yield reply(f"{parts[0]}, a byte short", framed(frame[4], frame[5:-1]))
        yield reply(f"{parts[0]}, its length one more", number(4, len(frame) - 3) + frame[4:])
        yield reply(f"{parts[0]}, its length one less", number(4, len(frame) - 5) + frame[4:])
    for flag in (0, 1, 2, 255):
        yield reply(f"a flag of {flag}", framed(134, bytes([flag])))
    most = 2**64 - 1
    yield reply("the greatest version", reply_frame(("published", most)))
    yield reply("an image of nothing", reply_frame(("image", most, most, b"")))
    yield reply("an image of 15 bytes in all", framed(130, bytes(15)))
    for size in (16363, 16364):
        yield reply(f"an image of {size:,} bytes", reply_frame(("image", 1, 4096, b"A" * size)))
    room = LONGEST_REPLY - 17
    yield reply("the longest image", reply_frame(("image", 1, 4096, b"A" * room)))
    yield reply("an image that is too long", reply_frame(("image", 1, 4096, b"A" * (room + 1))))
    for count in (0, 1, 65):
        spans = reply_frame(("places", [(4096, 1)] * count))
        yield reply(f"a list of {count}", spans)
        counted = spans[:5] + number(4, count + 1) + spans[9:]
        yield reply(f"a list of {count}, counted one more", counted)
    yield reply("a list that counts 2^32 - 1", framed(132, number(4, 2**32 - 1) + bytes(12)))
    yield reply("the greatest counts", reply_frame(("counts", [most - n for n in range(9)])))
    for kind in (0, 1, 7, 128, 139, 255):
        yield reply(f"the kind {kind}", framed(kind, b""))
    for frame in (b"", b"\1\0\0\0", number(4, 0), b"\x87"):
        yield reply(f"{len(frame)} bytes, no frame", frame)


def values(forms, at):
    """Values of these fields: of each form its least, or its greatest."""
    least = {"4": 0, "8": 0, "path": b"/a", "name": b"a"}
    path = b"/" + b"/".join([b"p" * 64] * 3 + [b"q" * 59])
    most = {"4": 2**32 - 1, "8": 2**64 - 1, "path": path, "name": b"~" * 1024}
    return [(most if at else least)[form] for form in forms]


def refusals():
    """Each code with its fields, a byte short and one more; codes that are none; and texts."""
    for code, (name, forms) in CODES.items():
        frame = reply_frame(("refused", name, *values(forms, 0)))
        yield reply(f"{name}, its least fields", frame)
        if forms:
            yield reply(f"{name}, its greatest", reply_frame(("refused", name, *values(forms, 1))))
            yield reply(f"{name}, a byte short", framed(131, frame[5:-1]))
        yield reply(f"{name}, a byte left over", framed(131, frame[5:] + b"\0"))
    yield reply("a refusal without a code", framed(131, b""))
    for code in sorted({near for c in CODES for near in (c - 1, c + 1)} - set(CODES) | {0, 255}):
        yield reply(f"the code {code}", framed(131, bytes([code])))
        yield reply(f"the code {code}, and four bytes", framed(131, bytes([code]) + bytes(4)))
    for text in (b"", b"a", b"/", b"/a/", b"//a", b"/a//b", b"/a b", b"/" + b"p" * 65, b"/\xc3\xa9",
                 b"/p" * 17, b"/" + b"/".join([b"p" * 64] * 3 + [b"q" * 60])):
        behind = bytes([41]) + field(b"/a") + bytes(4) + field(text)
        yield reply(f"L1, no path: {spelled(text)}", framed(131, behind))
        yield reply(f"L4, no path: {spelled(text)}", framed(131, b"\x2c" + field(text) + bytes(4)))
    for text in (b"/.", b"/..", b"/a.o/_+-9", b"/p" * 16):
        yield reply(f"L1, the path {text.decode()}", reply_frame(("refused", "L1", b"/a", 1, text)))
    for text in (b"", b"a b", b"a(", b"a)", b'"', b"a;", b"\x7f", b"\n", b"~" * 1025):
        yield reply(f"L10, no name: {spelled(text)}", framed(131, bytes([50]) + field(text)))
    for text in ("é".encode(), b"\xff", b"!#~", b"@plt+4"):
        yield reply(f"L10, the name {spelled(text)}", reply_frame(("refused", "L10", text)))


# ---- the examples of the document


def table(heading):
    """The rows of the first table below a heading."""
    rows, below = [], DOCUMENT.read_text().split(f"\n### {heading}\n", 1)[1]
    for line in below.splitlines():
        if line.startswith("|") and not re.match(r"\| (Kind|Cause) |\|-", line):
            rows.append([cell.strip() for cell in line.strip("|").split("|")])
        elif rows:
            return rows
    return rows


def examples(cell):
    """The whole frames among the words in code of a cell."""
    found = re.findall(r"`((?:[0-9A-F]{2} )+[0-9A-F]{2})`", cell)
    return [bytes.fromhex(text) for text in found]


def hold(true, what):
    if not true:
        end(f"docs/FORMATS.md: {what}")


def end(*what):
    print(*what, "0 passed, 1 failed", sep="\n")
    sys.exit(1)


def documented():
    for cells in table("Requests"):
        name, frame = cells[1].split(":")[0], examples(cells[-1])[-1]
        is_whole = front(frame)[:2] == ("frame", len(frame))
        hold(is_whole and frame[4] == int(cells[0]), f"the example of {name} is none")
        yield stream(f"the document's {name}", frame)
    for cells in table("Bytes that begin no frame"):
        for data in examples(cells[-1]):
            is_bad = front(data) == ("bad", cells[0].lower())
            hold(is_bad and front(data[:-1]) == ("waits",), f"{data.hex(' ')} isn't bad so there")
            yield stream(f"the document's bad {cells[0].lower()}", data)
    for cells in table("Replies"):
        name, frames = cells[1].split(":")[0], examples(cells[-1])
        hold(frames, f"{name} has no example")
        for frame in frames:
            is_one = reply_in(frame) is not None and frame[4] == int(cells[0].split()[0])
            hold(is_one, f"the example of {name} is none")
            yield reply(f"the document's {name}", frame)


def rows():
    yield from documented()
    yield from kinds()
    yield from parts()
    yield from large()
    yield from whole_replies()
    yield from refusals()
    yield from client_rows(spelled)


def main():
    made = list(rows())
    cases = HEAD + "".join(f"{kind} | {name} | {text}\n" for kind, name, text, _ in made)
    lines = "".join(f"{name}: {line}\n" for _, name, _, line in made)
    files = {CRATE / "data/cases.txt": cases, CRATE / "stdout": lines}
    if sys.argv[1:] == ["write"]:
        for file, text in files.items():
            file.write_text(text)
        return
    for file, text in files.items():
        if file.read_text() != text:
            end(f"{file} isn't what tests/wire.py makes: tests/wire.py write")
    wrong = []
    if sys.argv[1:]:
        program = Path(sys.argv[1]).resolve()
        got = subprocess.run([program], cwd=CRATE / "data", capture_output=True, text=True)
        pairs = list(zip_longest(lines.splitlines(), got.stdout.splitlines()))
        wrong = [f"wanted {line}\n   got {other}" for line, other in pairs if line != other]
        if got.returncode:
            end(*wrong[:5], got.stderr, f"status {got.returncode}")
    print(*wrong[:5], f"{len(made) - len(wrong)} passed, {len(wrong)} failed", sep="\n")
    sys.exit(bool(wrong))


if __name__ == "__main__":
    main()
