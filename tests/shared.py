#!/usr/bin/env python3
"""Writes the cases of crates/shared_cases: sessions that meet on one server as their gates hold
them, what each is sent, and the totals. Frames, replies and counts were worked out by hand from the
rules of docs/FORMATS.md ("The protocol", "The state of a server").

    tests/shared.py
"""

import struct
from pathlib import Path

from objects import PAGE, plain

CRATE = Path(__file__).resolve().parent.parent / "crates" / "shared_cases"

V1 = plain(b"\xe9\xfb\xff\xff\xff", 1, [("_start", 0)], [])
V2 = plain(b"\xeb\xfe\x90\x90\x90", 1, [("_start", 0)], [])


def field(path):
    return struct.pack("<H", len(path)) + path.encode()


def frame(kind, payload=b""):
    return struct.pack("<IB", 1 + len(payload), kind) + payload


# Requests.
def put(path, file):
    return frame(1, field(path) + file)


def blueprint(path, text):
    return frame(2, field(path) + text.encode())


def link(path):
    return frame(3, field(path))


def places(path):
    return frame(4, field(path))


def flush(path):
    return frame(6, field(path))


STATS = frame(5)
END = frame(7)


# Replies.
def published(version):
    return frame(129, struct.pack("<Q", version))


def linked(version, base, file):
    """The image of V1 or V2: a page with the headers, and a page that begins with the code."""
    head = b"\x7fELF\x02\x01\x01" + bytes(9) + struct.pack(
        "<HHIQQQIHHHHHH", 2, 62, 1, base, 64, 0, 0, 64, 56, 2, 0, 0, 0
    )
    head += struct.pack("<IIQQQQQQ", 1, 5, PAGE, base, base, 5, 5, PAGE)
    head += struct.pack("<IIQQQQQQ", 0x6474E551, 6, 0, 0, 0, 0, 0, 16)
    code = file[64:69]
    image = head.ljust(PAGE, b"\0") + code.ljust(PAGE, b"\0")
    return frame(130, struct.pack("<QQ", version, base) + image)


def no_entry(site, node, path):
    return frame(131, b"\x29" + field(site) + struct.pack("<I", node) + field(path))


def placed(*placements):
    rows = b"".join(struct.pack("<QI", base, pages) for base, pages in placements)
    return frame(132, struct.pack("<I", len(placements)) + rows)


def counts(*numbers):
    """Version, paths, placements, asked, hits, stored, evicted, held, steps."""
    assert len(numbers) == 9
    return frame(133, struct.pack("<9Q", *numbers))


def flushed(held):
    return frame(134, bytes([held]))


BYE = frame(135)

FIRST = 0x400000
SECOND = 0x401000
APP = [(put("/o/a", V1), published(1)), (blueprint("/app", "(image /o/a)"), published(2))]
MISS = (link("/app"), linked(2, FIRST, V1))
BYES = [(END, BYE)]

ALONE = APP + [
    MISS,
    MISS,  # a hit
    (put("/o/x", V1), published(3)),
    (link("/app"), linked(3, FIRST, V1)),  # a hit: /o/x isn't read
    (put("/o/a", V1), published(4)),
    (link("/app"), linked(4, FIRST, V1)),
    (STATS, counts(4, 3, 1, 4, 2, 2, 0, 1, 15)),
    (places("/app"), placed((FIRST, 1))),
] + BYES


def held(name, what, cache, one, two, totals):
    """Session one stops at its gate until two was sent all but its Bye."""
    sessions = {f"{name}-1": one + BYES, f"{name}-2": two + BYES}
    at = sum(len(reply) for _, reply in two)
    text = [
        what,
        f"socket s 2 2 {cache} 64",
        f"0 300 {totals}",
        "worker up 0 a b",
        f"{name}-1 4096",
        "worker a 0 up up",
        f"{name}-2 4096 b {at}",
    ]
    return "\n".join(text), sessions


def alone(what, step, status, room, words, fails, totals, name, frames):
    """One worker, whose gate holds nobody."""
    text = [what, words, f"{status} {room} {totals}", f"worker up {fails} a up", f"{name} {step}"]
    return "\n".join(text), {name: frames}


def own(what, status, room, sessions, fails):
    """One worker and one session, which publishes and sees that."""
    totals = "sessions 1 requests 2 version 1 placements 0 hits 0 stored 0 evicted 0"
    words = f"socket s 1 {sessions} 4 64"
    return alone(what, 4096, status, room, words, fails, totals, "own", OWN)


def turns(what, words, name, frames):
    """One session, of which each read and then each write fails: where a request is read whole its
    reply comes, and no more."""
    ends, read, sent = [], 0, 0
    for request, reply in frames:
        read, sent = read + len(request), sent + len(reply)
        ends.append(f"{read}:{sent}")
    return "\n".join([what, f"turns {words}", f"{name} {' '.join(ends)}"]), {name: frames}


OWN = [(put("/o/a", V1), published(1)), (STATS, counts(1, 1, 0, 0, 0, 0, 0, 0, 1))]

CASES = [
    held(
        "publish", "a publish between the asking and the answer", 4,
        APP + [
            MISS,
            # Put, Put, Asked, Put, Asked, Placed, Answered, Stored, Answered: a newer item is held.
            (STATS, counts(3, 2, 1, 2, 0, 1, 0, 1, 9)),
        ],
        [(put("/o/a", V2), published(3)), (link("/app"), linked(3, FIRST, V2))],
        "sessions 2 requests 6 version 3 placements 1 hits 0 stored 1 evicted 0",
    ),
    held(
        "twice", "two sessions miss one path", 4,
        APP + [
            MISS,
            # Put, Put, Asked, Asked, Placed, Answered, Stored, Answered.
            (STATS, counts(2, 2, 1, 2, 0, 1, 0, 1, 8)),
        ],
        [MISS],
        "sessions 2 requests 5 version 2 placements 1 hits 0 stored 1 evicted 0",
    ),
    held(
        "hit", "a hit while the same path is evaluated", 4,
        APP + [
            MISS,
            # Put, Put, Asked, Asked, Placed, Answered, Stored, Asked, Answered, Answered.
            (STATS, counts(2, 2, 1, 3, 1, 1, 0, 1, 10)),
        ],
        [MISS, MISS],
        "sessions 2 requests 6 version 2 placements 1 hits 1 stored 1 evicted 0",
    ),
    held(
        "flush", "a flush between the asking and the answer", 4,
        APP + [
            MISS,
            # Put, Put, Asked, Flushed, Asked, Placed, Answered, Stored, Flushed, Evicted, Answered,
            # Stored.
            (STATS, counts(2, 2, 1, 2, 0, 2, 1, 1, 12)),
        ],
        [(flush("/app"), flushed(0)), MISS, (flush("/app"), flushed(1))],
        "sessions 2 requests 7 version 2 placements 1 hits 0 stored 2 evicted 1",
    ),
    held(
        "evict", "an eviction between the asking and the answer", 1,
        APP + [
            MISS,
            # Put, Put, Asked, Asked, Placed, Answered, Stored, Asked, Placed, Answered, Evicted,
            # Stored, Answered, Evicted, Stored.
            (STATS, counts(2, 2, 2, 3, 0, 3, 2, 1, 15)),
        ],
        [MISS, (link("/o/a"), linked(2, SECOND, V1))],
        "sessions 2 requests 6 version 2 placements 2 hits 0 stored 3 evicted 2",
    ),
    held(
        "stale", "an image that is stored for an older version", 4,
        APP + [
            MISS,
            (link("/app"), linked(3, FIRST, V1)),  # a miss: /o/a has another stamp
            # Put, Put, Asked, Put, Placed, Answered, Stored, Asked, Answered, Stored.
            (STATS, counts(3, 2, 1, 2, 0, 2, 0, 1, 10)),
        ],
        [(put("/o/a", V1), published(3))],
        "sessions 2 requests 6 version 3 placements 1 hits 0 stored 2 evicted 0",
    ),
    held(
        "refused", "a refusal on the version at the asking", 4,
        [
            (blueprint("/app", "(image /o/a)"), published(1)),
            (link("/app"), no_entry("/app", 0, "/o/a")),
            MISS,  # a hit: session 2 stored it
            # Put, Asked, Put, Asked, Placed, Answered, Stored, Answered, Asked, Answered.
            (STATS, counts(2, 2, 1, 3, 1, 1, 0, 1, 10)),
        ],
        [(put("/o/a", V1), published(2)), MISS],
        "sessions 2 requests 6 version 2 placements 1 hits 1 stored 1 evicted 0",
    ),
    *(
        alone(
            f"one pass alone, {step} bytes a read", step, 0, 300, "socket s 1 1 4 64", 0,
            "sessions 1 requests 10 version 4 placements 1 hits 2 stored 2 evicted 0",
            "alone", ALONE,
        )
        for step in (1, 7, 4096)
    ),
    own("a pass's own publish", 0, 300, 1, 0),
    own("a door that fails at its second call", 9, 300, 2, 2),
    own("a door that hands over fewer", 0, 300, 3, 0),
    own("a sink that takes ten bytes of the totals", 4, 10, 1, 0),
    turns("each read, and each write, fails in turn", "socket s 1 1 4 64", "own", OWN),
]

HEAD = """# Written by tests/shared.py. A case: its name; the words; the status, how many bytes of
# the totals are taken, and their line; then for each worker `worker FLAG FAILS REACHED UNTIL`
# and a row `NAME STEP` or `NAME STEP FLAG AT` for each session (src/worker.rt). Or its name;
# `turns` and the words; and the name of a session with `REQUEST:REPLY ..`, where each request
# and its reply end: each read of it fails in turn, and then each write (src/turns.rt).
"""


def main():
    data = CRATE / "data"
    data.mkdir(exist_ok=True)
    lines = []
    for text, sessions in CASES:
        what = text.splitlines()[0]
        for name, frames in sessions.items():
            (data / f"{name}.in").write_bytes(b"".join(request for request, _ in frames))
            (data / f"{name}.out").write_bytes(b"".join(reply for _, reply in frames))
            if "\nturns " not in text:
                lines.append(f"ok {what}: {name}\n")
        last = ("reads", "writes") if "\nturns " in text else ("status", "totals")
        lines += [f"ok {what}: {word}\n" for word in last]
    table = "\n\n".join([HEAD.rstrip(), *(text for text, _ in CASES)])
    (data / "cases.txt").write_text(table + "\n")
    (CRATE / "stdout").write_text("".join(lines))


if __name__ == "__main__":
    main()
