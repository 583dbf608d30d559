#!/usr/bin/env python3
"""Measures commands of the editor in `ccm replay`, and keys in `ccm edit`, in documents of a thousand and of a million lines.

Usage: bench/commands.py [COUNT]     10,000 commands where no number is given, at least 10; needs the built program (./build)

The script prints, for each size of a document of lines of 16 characters, with `history`: the processor time of so many `do
insert` at the end of the document (the run with them less the run without); that of so many moves, left and right in turn; and
the time of one key of `edit`, of a fifth as many, in a window of 24 by 80, a character and a deletion in turn, from the
beginning of the file; each with the ratio of the two sizes. A time is the least of three runs.
"""
import os
import sys
import tempfile

from program import end, least

LINE = "x" * 15 + "\n"


def scripts(count, length):
    """The lines before, and those of each kind of command."""
    first = [
        '{"open":{"file":"text","extensions":["history"]}}\n',
        '{"update":[{"selection":[[%d,%d]]}]}\n' % (length, length),
    ]
    insert = ['{"do":{"command":"insert","text":"a","time":0}}\n'] * count
    moves = ['{"do":{"command":"move","move":"left"}}\n', '{"do":{"command":"move","move":"right"}}\n'] * (count // 2)
    return first, {"insertions at the end": insert, "moves": moves}


def measured(lines, count):
    """Seconds of so many insertions, of so many moves, and of one key."""
    with tempfile.TemporaryDirectory() as folder:
        with open(os.path.join(folder, "text"), "w", encoding="utf-8") as file:
            file.write(LINE * lines)
        first, kinds = scripts(count, len(LINE) * lines)
        before = least(["replay"], first, folder)[0]
        found = {name: least(["replay"], first + given, folder)[0] - before for name, given in kinds.items()}
        words, pairs = ["edit", "text", "24", "80"], count // 10
        opened = least(words, [], folder)[0]
        found["one key of edit"] = (least(words, ["a\x7f"] * pairs, folder)[0] - opened) / (2 * pairs)
    return found


def main():
    count = int(sys.argv[1]) if len(sys.argv) > 1 else 10_000
    if count < 10:
        end("COUNT is at least 10")
    small, large = measured(1_000, count), measured(1_000_000, count)
    for name, seconds in small.items():
        scale, unit = (1e6, "us") if "key" in name else (1, "s")
        print(f"{name}: {seconds * scale:.2f} {unit} in 1,000 lines, {large[name] * scale:.2f} {unit} in 1,000,000, {large[name] / seconds:.1f} times")


main()
