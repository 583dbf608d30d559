#!/usr/bin/env python3
"""Measures `ccm replay` on lines that each replace one character of a document of 64 characters.

Usage: bench/replay.py [LINES]     100,000 lines where no number is given; needs the built program (./build)

Each time is the processor time of the program, the least of five runs. The script prints the time of `ccm replay`
over these lines, the time that python3 needs for `json.loads` of the same lines alone, and their ratio, and then what a
line costs among half as many and among twice as many lines. Each change copies the one piece of this document; what a
line costs doesn't grow with the number of lines before it.
"""
import os
import subprocess
import sys
import tempfile

from program import least

LENGTH = 64
LOADS = "import json, sys\nfor line in sys.stdin.buffer:\n    json.loads(line)\n"


def made_lines(count):
    yield '{"start":{"doc":"%s"}}\n' % ("x" * LENGTH)
    for i in range(count):
        at = i * 37 % LENGTH
        letter = chr(ord("a") + i % 26)
        yield '{"update":[{"changes":[{"from":%d,"to":%d,"insert":"%s"}]}]}\n' % (at, at + 1, letter)


def seconds_of_loads(lines):
    """The least processor time of five runs of `json.loads` over the lines, in seconds."""
    times = []
    for _ in range(5):
        with tempfile.TemporaryFile("w+", encoding="utf-8") as script:
            script.writelines(lines)
            script.seek(0)
            child = subprocess.Popen([sys.executable, "-c", LOADS], stdin=script)
            _, _, usage = os.wait4(child.pid, 0)
            child.returncode = 0
        times.append(usage.ru_utime + usage.ru_stime)
    return min(times)


def main():
    count = int(sys.argv[1]) if len(sys.argv) > 1 else 100_000
    times = {lines: least(["replay"], made_lines(lines), times=5)[0] for lines in (count // 2, count, count * 2)}
    loads = seconds_of_loads(list(made_lines(count)))
    print(f"ccm replay of {count} lines:   {times[count]:.3f} s")
    print(f"json.loads of {count} lines:   {loads:.3f} s")
    print(f"ratio:                         {times[count] / loads:.2f}")
    for lines, taken in sorted(times.items()):
        print(f"a line among {lines} lines: {taken / lines * 1e6:.2f} microseconds")


main()
