#!/usr/bin/env python3
"""Writes a table of one case of link_cases into the current folder, for bench/text.sh: a canonical
text of so many bytes, which is read, written, read back and written again.

    bench/texts.py deep BYTES     64 parentheses inside one another, with paths in each
    bench/texts.py wide BYTES     a merge of paths
    bench/texts.py names BYTES    a show of names
"""

import sys
from pathlib import Path

def merges(depth, size):
    """A merge of paths, with so many merges inside one another as its first operand."""
    count = size // 3 // (depth + 1) - 4  # paths in each inner merge
    inner = f"(merge{' /a' * count} " * depth + "/a" + ")" * depth
    room = size - len(f"(image (merge {inner} /))")
    more = (room - 1) // 3
    return f"(image (merge {inner}{' /a' * more} /{'b' * (room - 3 * more)}))"


def names(size):
    room = size - len("(image (show (a) /))")
    more = (room - 1) // 2
    return f"(image (show (a{' a' * more}) /{'b' * (room - 2 * more)}))"


def main():
    shape, size = sys.argv[1], int(sys.argv[2])
    text = names(size) if shape == "names" else merges({"deep": 62, "wide": 0}[shape], size)
    Path("cases.txt").write_text(f"{shape} | /m {text} | text /m | text {text}\n")


main()
