"""The table of cases of crates/link_cases, for the scripts that write rows of it or run it."""

import shutil
import subprocess
import sys
import tempfile
from pathlib import Path

DATA = Path(__file__).resolve().parent.parent / "crates" / "link_cases" / "data"
MADE = "# Rows that "
WIDTH = 100


def parts_of(row):
    """The parts of a row: its name, and what begins with each `|` and `&`."""
    parts = [[]]
    for word in row.split(" "):
        if word in ("|", "&"):
            parts.append([])
        parts[-1].append(word)
    return [" ".join(words) for words in parts]


def wrapped(row):
    """The lines of a row. Each goes on, behind four blanks, where the one before ends at a blank:
    before a `|` or `&` where a whole part fits in a line, else between two words. Two blanks that
    follow one another stay together."""
    lines = [""]
    for part in parts_of(row):
        room = WIDTH if len(part) <= WIDTH - 4 else 0
        if lines[-1] and len(lines[-1]) + 1 + len(part) > room > 0:
            lines.append("    " + part)
            continue
        for word in part.split(" "):
            line = f"{lines[-1]} {word}" if lines[-1] else word
            if len(line) > WIDTH and word and lines[-1][-1:] not in ("", " "):
                lines.append("    " + word)
            else:
                lines[-1] = line
    return lines


def write(script, what, rows):
    """Writes rows behind those that hands wrote, and what the program is to print of the table.

    The rows stand under a heading with the name of the script that made them, in the place of those
    that it made before."""
    by_hand, *made = (DATA / "cases.txt").read_text().split("\n" + MADE)
    made = [part for part in made if not part.startswith(script)]
    lines = [line for row in rows for line in wrapped(row)]
    made.append(f"{script} wrote: {what}.\n\n" + "\n".join(lines) + "\n")
    text = ("\n" + MADE).join([by_hand, *sorted(made)])
    (DATA / "cases.txt").write_text(text)
    lines = [line for line in text.splitlines() if line and line[0] not in "# "]
    names = [line.split("|")[0].strip() for line in lines]
    (DATA.parent / "stdout").write_text("".join(f"ok {name}\n" for name in names))


def run(program, rows):
    """Ends this script where the program's answer to a row isn't the one that is wanted."""
    program = str(Path(program).resolve())
    with tempfile.TemporaryDirectory() as name:
        folder = Path(name)
        for path in DATA.glob("*.o"):
            shutil.copy(path, folder)
        (folder / "cases.txt").write_text("\n".join(rows) + "\n")
        said = subprocess.run([program], cwd=folder, capture_output=True, check=False, text=True)
    lines = said.stdout.splitlines()
    wrong = [k for k, line in enumerate(lines) if not line.startswith("ok ")]
    if said.returncode or len(lines) != len(rows) or wrong:
        print(said.stderr)
        for k in wrong[:10]:
            print(lines[k], rows[k], sep="\n")
        sys.exit("answers differ")
