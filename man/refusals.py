#!/usr/bin/env python3
"""Writes docs/REFUSALS.md, man/omos-refusals.7 and crates/refusal_words/src/table.rt from
docs/refusals.txt, or checks them.

usage: man/refusals.py write
       man/refusals.py check     whether the three are what would be written, and whether the table
                                 has the names, codes and fields of crates/refusal_lines and
                                 docs/FORMATS.md, and the statuses of docs/FORMATS.md. Ends with
                                 'N passed, M failed'.
"""
import importlib.machinery
import importlib.util
import os
import re
import sys
import textwrap

HOME = os.path.dirname(os.path.dirname(os.path.realpath(__file__)))
sys.dont_write_bytecode = True
loader = importlib.machinery.SourceFileLoader("explain", HOME + "/contrib/omos-explain")
explain = importlib.util.module_from_spec(importlib.util.spec_from_loader("explain", loader))
loader.exec_module(explain)


def wrap(text, width):
    """Lines of at most so many columns; a word stays whole at its hyphens."""
    return textwrap.wrap(text, width, break_on_hyphens=False)


def read(name):
    return open(os.path.join(HOME, name), encoding="utf-8").read()


def titled(head):
    """What is printed, as `refused O5 SECTION`, `full`, or `status 3`."""
    if head[0] == "refusal":
        names = explain.field_names(head[3:])
        names = ["PATH" if n == "site" else n.upper() for n in names]
        return " ".join(["refused", head[1], *names])
    return " ".join(head[1:]) if head[0] == "line" else "status " + head[2]


def said(text):
    """A text with the names of fields as they stand in the title."""
    text = text.replace("{site}", "PATH")
    return re.sub(r"{(\w+)}", lambda m: m[1].upper(), text)


GROUPS = [
    ("Paths", lambda h: h[1].startswith("P")),
    ("Objects", lambda h: h[1].startswith("O")),
    ("Blueprints", lambda h: h[1].startswith("B")),
    ("Links", lambda h: h[1].startswith("L")),
]


def grouped(table):
    rows = [(h, p) for h, p in table if h[0] == "refusal"]
    for name, test in GROUPS:
        yield name, [(h, p) for h, p in rows if test(h)]
    yield "What a server without room says", [(h, p) for h, p in table if h[0] == "line"]
    for program in ("omosd", "omos"):
        yield f"Statuses of {program}", [(h, p) for h, p in table if h[:2] == ["status", program]]


def plain(text):
    """A text as Markdown: nothing in it is markup."""
    return re.sub(r"([<>*_|\[\]])", r"\\\1", said(text))


def markdown(table):
    lines = ["# Refusals and statuses", ""]
    lines += wrap("What each printed line and each status means, when it comes, and what "
        "to do. Made by `man/refusals.py write` from [refusals.txt](refusals.txt); "
        "`omos-explain` says the same at the command line, and `man omos-refusals` too. "
        "[FORMATS.md](FORMATS.md) says each condition to the letter. A PATH and a NODE in a "
        "refusal of a link are a *site*: the blueprint, and the number of the operator or path "
        "in it, counted from 0 as they begin in the text.", 100)
    for name, rows in grouped(table):
        lines += ["", f"## {name}"]
        for head, part in rows:
            lines += ["", f"### `{titled(head)}`", ""]
            lines += wrap(f"{plain(part['what'])} {plain(part['why'])}", 100)
            lines += [""] + wrap(f"*{plain(part['do'])}*"
                if part["do"] != "Nothing." else "Nothing is to be done.", 100)
    return "\n".join(lines) + "\n"


def roff(text):
    """A text as lines of a page: a sentence a line, and no line that is a request."""
    text = said(text).replace("\\", "\\e")
    sentences = re.split(r"(?<=[.?:]) (?=[A-Z])", text)
    lines = [line for sentence in sentences for line in wrap(sentence, 78)]
    return ["\\&" + line if line.startswith((".", "'")) else line for line in lines]


PAGE = r"""
.\" Made by man/refusals.py from docs/refusals.txt.
.Dd December 1, 2026
.Dt OMOS-REFUSALS 7
.Os
.Sh NAME
.Nm omos-refusals
.Nd what the lines and statuses of omosd and omos mean
.Sh DESCRIPTION
A request that the server can't answer is answered by one line, which
.Xr omos 1
prints on standard output, as
.Xr omosd 1
does for its command
.Cm once :
.Pp
.Dl refused L5 /app 0 malloc
.Pp
Of what is wrong it says the first, in an order that
.Pa docs/FORMATS.md
gives, and no image is made.
Numbers are decimal.
A
.Ar PATH
and a
.Ar NODE
are the site of a refusal: a blueprint, and the number of the operator or path
in it, counted from 0 as they begin in the text.
.Pp
.Xr omos-explain 1
says of a line what stands here, and shows the operator or the section.
"""


def page(table):
    lines = PAGE.strip().split("\n")
    for name, rows in grouped(table):
        lines += [f".Sh {name.upper()}", ".Bl -tag -width Ds"]
        for head, part in rows:
            lines += [f".It Li {titled(head)}", *roff(part["what"]), *roff(part["why"])]
            if part["do"] != "Nothing.":
                lines += [".Pp", *roff(part["do"])]
        lines += [".El"]
    lines += [".Sh SEE ALSO", ".Xr omos 1 ,", ".Xr omos-explain 1 ,", ".Xr omosd 1 ,",
              ".Xr omos-blueprint 5 ,", ".Xr omos-protocol 7"]
    return "\n".join(lines) + "\n"


SOURCE = """\
//! What each line means, and what to do. Made by man/refusals.py from docs/refusals.txt.

/// The words that a line begins with, a sentence of what it means, and one of its cure. `{2}`
/// stands for the line's word of that number, counted from 0.
pub(crate) const TABLE: [(&str, &str, &str); %d] = [
%s];
"""


def literal(text):
    """A text as a literal of one or more lines, behind eight blanks."""
    quoted = text.replace("\\", "\\\\").replace('"', '\\"')
    return '        "' + " \\\n         ".join(wrap(quoted, 86)) + '",\n'


def source(table):
    """The table of the programs: of each refusal and line the words, what and do."""
    rows = ""
    lines = [(h, p) for h, p in table if h[0] in ("refusal", "line")]
    for head, part in lines:
        names = explain.field_names(head[3:]) if head[0] == "refusal" else []
        numbers = {name: "{%d}" % (n + 2) for n, name in enumerate(names)}
        words = "refused " + head[1] if head[0] == "refusal" else " ".join(head[1:])
        what, do = (part[key].format(**numbers) for key in ("what", "do"))
        rows += "    (\n" + literal(words) + literal(what) + literal(do) + "    ),\n"
    return SOURCE % (len(lines), rows)


def written(table):
    """What is made of the table: a file's name and text."""
    return {"docs/REFUSALS.md": markdown(table), "man/omos-refusals.7": page(table),
            "crates/refusal_words/src/table.rt": source(table)}


# ---- the checks

def codes():
    """Of refusal_lines' table of definitions: name, code, and the kinds of the fields."""
    text = read("crates/refusal_lines/specs/Codes.antt")
    found = {}
    for name, code, rest in re.findall(r'coded \(codes "(\w+)"\) (\d+) (\[\]|\(.*\))', text):
        kinds = re.findall(r"\b(sited|Number|Wide|Symbol|Path)\b", rest)
        found[name] = (int(code), ["Site" if k == "sited" else k for k in kinds])
    return found


def printed():
    """Of the program's own table: name and code."""
    text = read("crates/refusal_lines/src/table.rt")
    found = dict(re.findall(r'\(b"([A-Z]\d+)", (\d+)', text))
    found.update(re.findall(r'name: b"([A-Z]\d+)",\s+code: (\d+)', text))
    return {name: int(code) for name, code in found.items()}


def formats():
    """Of docs/FORMATS.md's table of codes: name, code and fields with their sizes."""
    text = read("docs/FORMATS.md").split("### The codes of refusals")[1].split("###")[0]
    found = {}
    row = r"^\| ([A-Z][^|]*) \| ([\d, ]+) \| ([^|]+) \|"
    for names, numbers, fields in re.findall(row, text, re.M):
        for name, code in zip(names.split(", "), numbers.split(", ")):
            words = [] if fields.strip() == "none" else fields.strip().split(", ")
            found[name] = (int(code), [w.split() for w in words])
    return found


def statuses(program):
    """Of docs/FORMATS.md's command lines: the statuses of a program."""
    part = read("docs/FORMATS.md").split(f"## The command line of `{program}`")[1].split("\n## ")[0]
    table = part.split("| Status |")[1].split("\n\n")[0]
    rows = re.findall(r"^\| (\d[\d, ]*) \|", table, re.M)
    return sorted(int(n) for row in rows for n in row.split(", "))


def paged():
    """Of man/omos-protocol.7's table of codes: name, code and fields with their sizes."""
    text = read("man/omos-protocol.7").split(".Ss Codes of refusals")[1].split(".El")[0]
    found = {}
    for names, codes_, fields in re.findall(r"^\.It ([A-Z]\d.*) Ta (.*) Ta (.*)$", text, re.M):
        # `O1 to O4` and `11 to 14`, or lists of the same length
        if " to " in names:
            low, high = (int(n[1:]) for n in names.split(" to "))
            names = ", ".join(names[0] + str(n) for n in range(low, high + 1))
            low, high = map(int, codes_.split(" to "))
            codes_ = ", ".join(map(str, range(low, high + 1)))
        each = fields.split("; ") if "; " in fields else [fields] * 9
        for name, code, field in zip(names.split(", "), codes_.split(", "), each):
            found[name] = (int(code), [] if field == "none" else
                           [f.split() for f in field.split(", ")])
    return found


def kind_of(field):
    """The kind of a field that docs/FORMATS.md gives with its size."""
    word, *size = field
    return {"site": "Site", "path": "Path", "name": "Symbol"}.get(word) or \
        {"4": "Number", "8": "Wide"}[size[0]]


def check(table):
    counts = [0, 0]

    def hold(what, one, two):
        counts[one != two] += 1
        if one != two:
            print(f"FAILED: {what}: {one!r} is not {two!r}")

    ours = {h[1]: (int(h[2]), h[3:]) for h, _ in table if h[0] == "refusal"}
    hold("names of the definitions", sorted(ours), sorted(codes()))
    hold("names of the program", sorted(ours), sorted(printed()))
    hold("names of FORMATS.md", sorted(ours), sorted(formats()))
    hold("the codes of omos-protocol.7", paged(), formats())
    for name, (code, fields) in ours.items():
        in_formats = formats().get(name, (0, []))
        hold(f"{name} in the definitions", (code, [kind_of(f) for f in in_formats[1]]),
             codes().get(name))
        hold(f"{name} in the program", code, printed().get(name))
        hold(f"{name} in FORMATS.md", (code, fields),
             (in_formats[0], [f[0] for f in in_formats[1]]))
    for program in ("omosd", "omos"):
        rows = sorted(int(h[2]) for h, _ in table if h[:2] == ["status", program])
        hold(f"the statuses of {program}", rows, statuses(program))
    for head, part in table:
        hold(f"the parts of {head}", sorted(part), ["do", "what", "why"])
        names = set(re.findall(r"{(\w+)}", " ".join(part.values())))
        hold(f"the fields of {head}", names <= set(explain.field_names(head[3:])), True)
    for name, text in written(table).items():
        hold(name, read(name) == text, True)
    print(f"{counts[0]} passed, {counts[1]} failed")
    return counts[1] > 0


def main():
    table = explain.entries(HOME + "/docs/refusals.txt")
    if sys.argv[1:] == ["check"]:
        return check(table)
    if sys.argv[1:] != ["write"]:
        print(__doc__.strip(), file=sys.stderr)
        return 2
    for name, text in written(table).items():
        with open(os.path.join(HOME, name), "w", encoding="utf-8") as file:
            file.write(text)
    return 0


sys.exit(main())
