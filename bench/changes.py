#!/usr/bin/env python3
"""Measures `ccm replay` on updates of one spec with many changes at ascending places.

Usage: bench/changes.py      needs the built program (./build)

The document has 100,000 characters. An update inserts one character at each of n places, for n of 1,000, 2,000 and so on to
16,000. The script prints the processor time of each (a run with the update ten times, each from a new start, less a run of
the starts alone, over ten; the least of three) and its ratio to that of half as many.
"""
from program import end, least

LENGTH = 100_000
TIMES = 10


def start():
    return '{"start":{"doc":"%s"}}\n' % ("abcdefghi\\n" * (LENGTH // 10))


def update(count):
    """One spec with insertions at so many ascending places."""
    changes = ",".join('{"from":%d,"insert":"x"}' % (i * LENGTH // count) for i in range(count))
    return '{"update":[{"changes":[%s]}]}\n' % changes


def seconds(lines):
    return least(["replay"], lines)[0]


def main():
    base = seconds([start()] * TIMES)
    last = None
    for count in (1_000, 2_000, 4_000, 8_000, 16_000):
        line = update(count)
        if len(line) > 1_048_576:
            end(f"the line of {count} changes is too long")
        spent = max(0.0, seconds([start(), line] * TIMES) - base) / TIMES
        ratio = "" if not last else f", {spent / last:.2f} times that of half as many"
        print(f"{count} insertions in one update: {spent * 1000:.1f} ms{ratio}")
        last = spent


main()
