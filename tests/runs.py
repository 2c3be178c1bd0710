"""Runs of the client as docs/FORMATS.md tells them: the rows of the client for tests/wire.py."""

from frames import LONGEST_REPLY, framed, number, refusal_line, reply_frame, reply_in
from frames import request_frame, shown

END = request_frame(("end",))
BYE = reply_frame(("bye",))
WITH_FILE, WITH_PATH = ("put", "blueprint", "link"), ("where", "flush")
OBJECT, TEXT, IMAGE = b"\x7fELF", b"(image /a)", bytes(range(1, 9))
COUNTS = ("counts", [4, 3, 1, 4, 2, 2, 0, 1, 15])
REFUSED = ("refused", "L5", b"/all", 0, b"malloc")
SPANS = ("places", [(0x400000, 1), (0x7FFFFF000000, 2047), (2**64 - 4096, 2**32 - 1)])
REPLIES = [("published", 3), ("image", 3, 0x400000, IMAGE), REFUSED, SPANS, COUNTS, ("flushed", 1)]
REPLIES += [("bye",), ("no memory",), ("full",), ("kept full",)]
OWN = {"put": "published", "blueprint": "published", "link": "image", "where": "places"}
OWN |= {"stats": "counts", "flush": "flushed"}
ERRANDS = {
    "put": ("s put /a f", OBJECT),
    "blueprint": ("s blueprint /p f", TEXT),
    "link": ("s link /p f", None),
    "where": ("s where /p", None),
    "stats": ("s stats", None),
    "flush": ("s flush /p", None),
}


def may_have(word, reply):
    """The replies of a request, as the document's table of them has it."""
    has = {OWN[word], "full"}
    if word in ("put", "blueprint"):
        has |= {"kept full"}
    if word != "stats":
        has |= {"refused"}
    if word not in ("stats", "flush"):
        has |= {"no memory"}
    return reply[0] in has


def asked(words):
    """Command, path and file, or None where the words ask for nothing."""
    command, *rest = words[1:] or [None]
    if command in WITH_FILE and len(rest) == 2 or command in WITH_PATH and len(rest) == 1:
        return (command, *rest) if len(rest[0].encode()) <= 2000 else None
    return ("stats",) if command == "stats" and not rest else None


def heard(incoming):
    """The next reply and what follows it, or the status."""
    length = int.from_bytes(incoming[:4], "little")
    if len(incoming) < 4:
        return 7, b""
    if not 1 <= length <= LONGEST_REPLY:
        return 5, b""
    if len(incoming) < 4 + length:
        return 7, b""
    reply = reply_in(incoming[: 4 + length])
    return (5, b"") if reply is None else (reply, incoming[4 + length :])


def line_for(reply):
    word, *values = reply
    if word == "image":
        return f"image version {values[0]} base {values[1]:#x} bytes {len(values[2])}\n"
    if word == "refused":
        return refusal_line(reply).decode()
    if word == "places":
        return "".join(f"{base:#x} {pages}\n" for base, pages in values[0])
    if word == "counts":
        names = "version paths placements asked hits stored evicted held steps".split()
        return " ".join(f"{name} {n}" for name, n in zip(names, values[0])) + "\n"
    return " ".join([word] + [str(v) for v in values]) + "\n"


def ran(words, file, incoming):
    """Status, what was sent and printed, and what the file holds then."""
    errand = asked(words)
    if errand is None:
        return 2, b"", "", file
    command = errand[0]
    fields = [errand[1].encode()] if len(errand) > 1 else []
    if command in ("put", "blueprint"):
        if file is None:
            return 6, b"", "", file
        if len(file) > 2000000:
            return 10, b"", "", file
        fields.append(file)
    sent = request_frame((command, *fields)) + END
    reply, rest = heard(incoming)
    if isinstance(reply, int):
        return reply, sent, "", file
    if not may_have(command, reply):
        return 5, sent, "", file
    bye, rest = heard(rest)
    if bye != ("bye",):
        return bye if isinstance(bye, int) else 5, sent, "", file
    if reply[0] == "image":
        file = reply[3]
    status = {"refused": 1, "full": 1, "kept full": 1, "no memory": 12}.get(reply[0], 0)
    return status, sent, line_for(reply), file


def told(run):
    status, sent, printed, file = run
    quoted = '"' + printed.replace("\n", "\\n") + '"'
    holds = "none" if file is None else shown(file)
    return f"status {status}, sent {shown(sent)}, printed {quoted}, file {holds}"


def turns(words, file, incoming):
    """The statuses where each call fails in turn; `incoming` ends with Bye."""
    run = ran(words, file, incoming)
    status, sent, printed, _ = run
    own = f"{status:x}"
    line = f"{told(run)}; reads {'3' * len(incoming)}{own}; ends {'7' * len(incoming)}{own}"
    line += f"; writes {'4' * len(sent)}{own}; prints {'b' * len(printed)}{own}"
    uses_file = words[1] in ("put", "blueprint") or words[1] == "link" and status == 0
    return line + f"; files {'6' if uses_file else own}"


def client_rows(spelled):
    """The rows of the client: kind, name, what the table has behind it, and the line."""
    def row(kind, name, words, file, *frames):
        incoming = b"".join(frames)
        text = " ".join(spelled(frame) for frame in frames if frame) or "-"
        holds = "none" if file is None else spelled(file)
        real = [word.split("*") for word in words.split()]
        real = [chr(int(w[1], 16)) * int(w[0]) if len(w) == 2 else w[0] for w in real]
        line = (turns if kind == "faults" else lambda *all: told(ran(*all)))(real, file, incoming)
        return kind, name, f"{words} | {holds} | {text}", line

    # Each command with its own reply, and each call of the outside failing in turn.
    for command, (words, file) in ERRANDS.items():
        for reply in REPLIES:
            if reply[0] == OWN[command]:
                name = f"{command}, step by step"
                yield row("faults", name, words, file, reply_frame(reply), BYE)
    refused = reply_frame(REFUSED)
    yield row("faults", "a refused link, step by step", "s link /p f", None, refused, BYE)

    # Each command with each reply, as it may have it or not.
    for command, (words, file) in ERRANDS.items():
        for reply in REPLIES:
            name = f"{command} is answered {reply[0]}"
            yield row("client", name, words, file, reply_frame(reply), BYE)
    image, none = reply_frame(REPLIES[1]), reply_frame(("places", []))
    yield row("client", "flush is answered 0", "s flush /p", None, framed(134, b"\0"), BYE)
    yield row("client", "where is answered an empty list", "s where /p", None, none, BYE)
    yield row("client", "a link's file was there", "s link /p f", b"old", image, BYE)

    # What is not Bye, where Bye is to come; and what follows Bye.
    published = reply_frame(("published", 3))
    put = ("s put /a f", OBJECT)
    yield row("client", "a reply before Bye", *put, published, published, BYE)
    for reply in REPLIES:
        yield row("client", f"{reply[0]} for Bye", *put, published, reply_frame(reply))
    yield row("client", "bytes behind Bye", *put, published, BYE, b"\0\0\0\0")
    yield row("client", "a Bye with a byte", *put, published, framed(135, b"\0"))
    yield row("client", "a Bye of no length", *put, published, number(4, 0))

    # No reply.
    none = {
        "a refusal whose place is a byte short": framed(131, bytes([2, 0, 0, 0])),
        "a refusal with a byte left over": framed(131, bytes([1, 0])),
        "a refusal of no code": framed(131, bytes([54])),
        "a flag of 2": framed(134, b"\2"),
        "a kind that is none": framed(255, b""),
        "a request": END,
        "a length of 0": number(4, 0),
        "a length of 16,777,217": number(4, LONGEST_REPLY + 1),
        "nothing": b"",
        "three bytes": b"\1\0\0",
    }
    for name, frame in none.items():
        bye = BYE if len(frame) > 4 else b""
        yield row("client", f"{name} for a reply", "s link /p f", None, frame, bye)

    # The longest that is sent, and one more; words that ask for nothing.
    done = (published, BYE)
    yield row("client", "a file of 2,000,000 bytes", "s put /a f", b"A" * 2000000, *done)
    yield row("client", "a file of 2,000,001 bytes", "s put /a f", b"A" * 2000001, *done)
    yield row("client", "no file to put", "s put /a f", None, *done)
    yield row("client", "no file to publish as a blueprint", "s blueprint /a f", None, *done)
    yield row("client", "an empty file", "s blueprint /a f", b"", *done)
    yield row("client", "a path of 2,000 bytes", "s put 2000*61 f", OBJECT, *done)
    yield row("client", "a path of 2,001 bytes", "s put 2001*61 f", OBJECT, *done)
    yield row("client", "a path that is none is sent", "s link a//b f", None,
              reply_frame(("refused", "P2", 0)), BYE)
    for words in ("", "s", "s put", "s put /a", "s put /a f g", "s link /a", "s where",
                  "s where /a f", "s flush", "s stats /a", "s stat", "s Put /a f", "stats"):
        yield row("client", f"words: {words or 'none'}", words, OBJECT, *done)
