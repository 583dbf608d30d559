#!/usr/bin/env python3
"""Measures `ccm replay` on edits of large documents, and what such a document takes of memory.

Usage: bench/documents.py [EDITS]     20,000 edits where no number is given; needs the built program (./build)

Each document is made by lines of at most 1 MiB, and then so many lines each replace one character at places far apart.
The script prints the processor time of these edits (the run with them less the run without) in a document of 400 lines,
in one of 400,000 lines of 20 characters, and in one of a single line of 8,000,000 characters, with the ratios to the
first; and for a document of 400,000 lines of 40 characters the greatest memory of the run, all of it, for each character. A
time is the least of three runs.
"""
import sys

from program import least

# The characters of one line of the script: with an LF written as two characters they keep to 1 MiB.
PIECE = 900_000


def document(unit, count):
    """The lines that make a document of so many times the unit."""
    text = unit * max(1, PIECE // len(unit))
    yield '{"start":{"doc":""}}\n'
    left, at = count * len(unit), 0
    while left > 0:
        piece = text[: min(left, len(text))]
        yield '{"update":[{"changes":[{"from":%d,"insert":"%s"}]}]}\n' % (at, piece.replace("\n", "\\n"))
        left -= len(piece)
        at += len(piece)


def edits(length, count):
    """Lines that each replace one character, at places far apart."""
    step = int(length * 0.61803398875)
    place = 0
    for i in range(count):
        place = (place + step) % length
        yield '{"update":[{"changes":[{"from":%d,"to":%d,"insert":"%s"}]}]}\n' % (place, place + 1, chr(ord("a") + i % 26))


def seconds_of_edits(unit, count, number):
    made = list(document(unit, count))
    changed = made + list(edits(count * len(unit), number))
    return max(0.0, least(["replay"], changed)[0] - least(["replay"], made)[0])


def main():
    number = int(sys.argv[1]) if len(sys.argv) > 1 else 20_000
    small = seconds_of_edits("x" * 19 + "\n", 400, number)
    print(f"{number} edits in 400 lines: {small:.2f} s")
    for name, unit, count in (("400,000 lines", "x" * 19 + "\n", 400_000), ("one line of 8,000,000 characters", "x" * 20, 400_000)):
        large = seconds_of_edits(unit, count, number)
        ratio = f", {large / small:.1f} times" if small else ""
        print(f"{number} edits in {name}: {large:.2f} s{ratio}")
    memory = least(["replay"], document("x" * 40 + "\n", 400_000), times=1)[1]
    print(f"400,000 lines of 40 characters: {memory / 16_400_000:.1f} bytes a character")


main()
