"""The frames of docs/FORMATS.md, built and read: what tests/wire.py expects.

Requests and replies are tuples, as ("link", path) and ("published", version). A refusal has its
name and its fields, a site being two of them: ("refused", "L4", path, node). The codes and their
fields are read from the document.
"""

import re
import struct
import zlib

from codes import written

# kind: the word, whether a path field follows, and whether a content follows to the frame's end
REQUESTS = {
    1: ("put", True, True),
    2: ("blueprint", True, True),
    3: ("link", True, False),
    4: ("where", True, False),
    5: ("stats", False, False),
    6: ("flush", True, False),
    7: ("end", False, False),
}
KINDS = {word: kind for kind, (word, _, _) in REQUESTS.items()}
LONGEST_REQUEST = 2097152
LONGEST_REPLY = 16777216
PLAIN = {135: "bye", 136: "no memory", 137: "full", 138: "kept full"}
CODES = {
    code: (name, [part for f in fields for part in (["path", "4"] if f == "site" else [f])])
    for name, (code, fields) in written().items()
}
CODE_OF = {name: code for code, (name, _) in CODES.items()}


def number(width, value):
    return value.to_bytes(width, "little")


def field(data):
    return number(2, len(data)) + data


def framed(kind, payload):
    return number(4, 1 + len(payload)) + bytes([kind]) + payload


def shown(data):
    """Bytes as a line of wire_cases shows them."""
    return f"{len(data)}:" + (data.hex() if len(data) <= 24 else f"sum-{zlib.adler32(data):08x}")


# ---- requests


def request_frame(request):
    word, *fields = request
    _, has_path, _ = REQUESTS[KINDS[word]]
    payload = field(fields[0]) + b"".join(fields[1:]) if has_path else b""
    return framed(KINDS[word], payload)


def front(data):
    """What stands at the front: ("waits",), ("bad", cause) or ("frame", size, request)."""
    if len(data) < 4:
        return ("waits",)
    length = int.from_bytes(data[:4], "little")
    if not 1 <= length <= LONGEST_REQUEST:
        return ("bad", "length")
    if len(data) < 5:
        return ("waits",)
    if data[4] not in REQUESTS:
        return ("bad", "kind")
    word, has_path, has_content = REQUESTS[data[4]]
    if not has_path and length != 1 or has_path and length < 3:
        return ("bad", "shape")
    count = 0
    if has_path:
        if len(data) < 7:
            return ("waits",)
        count = int.from_bytes(data[5:7], "little")
        left = length - 3 - count
        if left < 0 or left > 0 and not has_content:
            return ("bad", "shape")
    if len(data) < 4 + length:
        return ("waits",)
    fields = [data[7 : 7 + count]] if has_path else []
    fields += [data[7 + count : 4 + length]] if has_content else []
    return ("frame", 4 + length, (word, *fields))


def stream_line(data, sizes=(1, 2, 3, 7, 4096)):
    """The line of a stream: what comes, and after how many bytes by pieces of each size."""
    words, places, place, end = [], [], 0, None
    while end is None:
        # A frame that is bad is so by its first seven bytes.
        bad = [n for n in range(8) if front(data[place : place + n])[0] == "bad"]
        found = front(data[place:])
        if found[0] == "frame":
            place += found[1]
            words.append(" ".join([found[2][0]] + [shown(f) for f in found[2][1:]]))
            places.append(place)
        elif found[0] == "bad":
            words.append(f"bad at {place} by its {found[1]}")
            places.append(place + bad[0])
            end = "for good"
        else:
            end = f"{len(data) - place} wait"
    line = "; ".join(words + [end])
    for size in sizes:
        fed = [min(-(-n // size) * size, len(data)) for n in places]
        line += f"; by {size}:" + "".join(f" {n}" for n in fed)
    return line


# ---- replies


def is_path(data):
    return len(data) <= 255 and re.fullmatch(rb"(/[A-Za-z0-9._+-]{1,64}){1,16}", data) is not None


def is_name(data):
    return re.fullmatch(rb"[!#-'*-:<-~\x80-\xff]{1,1024}", data, re.S) is not None


def part_bytes(form, value):
    return number(int(form), value) if form in ("4", "8") else field(value)


def reply_frame(reply):
    word, *values = reply
    if word == "published":
        return framed(129, number(8, values[0]))
    if word == "image":
        return framed(130, number(8, values[0]) + number(8, values[1]) + values[2])
    if word == "refused":
        code = CODE_OF[values[0]]
        parts = [part_bytes(form, v) for form, v in zip(CODES[code][1], values[1:], strict=True)]
        return framed(131, bytes([code]) + b"".join(parts))
    if word == "places":
        spans = b"".join(number(8, base) + number(4, pages) for base, pages in values[0])
        return framed(132, number(4, len(values[0])) + spans)
    if word == "counts":
        return framed(133, b"".join(number(8, n) for n in values[0]))
    if word == "flushed":
        return framed(134, bytes([values[0]]))
    return framed({text: kind for kind, text in PLAIN.items()}[word], b"")


def refused_in(payload):
    if not payload or payload[0] not in CODES:
        return None
    name, forms = CODES[payload[0]]
    rest, values = payload[1:], []
    for form in forms:
        head = int(form) if form in ("4", "8") else 2
        if len(rest) < head:
            return None
        value, rest = int.from_bytes(rest[:head], "little"), rest[head:]
        if form in ("path", "name"):
            if len(rest) < value:
                return None
            value, rest = rest[:value], rest[value:]
            if not (is_path if form == "path" else is_name)(value):
                return None
        values.append(value)
    return None if rest else ("refused", name, *values)


def reply_in(frame):
    """The reply of a whole frame, or None."""
    length = int.from_bytes(frame[:4], "little")
    if len(frame) < 5 or length != len(frame) - 4 or length > LONGEST_REPLY:
        return None
    kind, payload = frame[4], frame[5:]
    if kind == 129 and len(payload) == 8:
        return ("published", *struct.unpack("<Q", payload))
    if kind == 130 and len(payload) >= 16:
        return ("image", *struct.unpack("<QQ", payload[:16]), payload[16:])
    if kind == 131:
        return refused_in(payload)
    if kind == 132 and len(payload) >= 4:
        if len(payload) - 4 == 12 * int.from_bytes(payload[:4], "little"):
            return ("places", list(struct.iter_unpack("<QI", payload[4:])))
    if kind == 133 and len(payload) == 72:
        return ("counts", list(struct.unpack("<9Q", payload)))
    if kind == 134 and payload in (b"\0", b"\1"):
        return ("flushed", payload[0])
    return (PLAIN[kind],) if kind in PLAIN and not payload else None


def refusal_line(reply):
    """The printed line of a refusal, with its newline."""
    fields = [v if isinstance(v, bytes) else str(v).encode() for v in reply[2:]]
    return b" ".join([b"refused", reply[1].encode(), *fields]) + b"\n"


def words_of(reply):
    """A reply as a line of wire_cases tells it."""
    word, *values = reply
    if word == "image":
        return f"image {values[0]} {values[1]} {shown(values[2])}"
    if word == "refused":
        line = refusal_line(reply)
        try:
            return line.decode().rstrip() if len(line) < 80 else shown(line)
        except UnicodeDecodeError:
            return shown(line)
    if word == "places":
        return "places" + "".join(f" {base} {pages}" for base, pages in values[0])
    if word == "counts":
        return " ".join(["counts"] + [str(n) for n in values[0]])
    return " ".join([word] + [str(v) for v in values])


def reply_line(frame):
    """The line of a frame. One of at most 16,384 bytes, and a list, is written by one write."""
    reply = reply_in(frame)
    if reply is None:
        return "no reply"
    is_joined = reply[0] != "image" or len(frame) <= 16384
    return f"{words_of(reply)}; written part {'whole' if is_joined else 'part'} whole"
