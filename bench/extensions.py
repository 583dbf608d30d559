#!/usr/bin/env python3
"""Measures `ccm replay` on sessions with many extensions, and on many declarations.

Usage: bench/extensions.py [UPDATES]     100,000 updates where no number is given; needs the built program (./build)

The script prints the processor time of so many updates that each insert a character (the run with them less the run
without) in a session without extensions, and in one with 40 fields and 40 facets, of which each update makes one facet due,
with the ratio of the two; and the time of 25,000, 50,000 and 100,000 declarations of facets. A time is the least of three runs.
"""
import sys

from program import least


def seconds(lines):
    return least(["replay"], [line + "\n" for line in lines])[0]


def updates(number):
    return ['{"update":[{"changes":[{"from":0,"insert":"a"}]}]}'] * number


def extended():
    """40 fields that listen to effects which never come, and 40 facets: one computed from the document, the others inputs."""
    names = []
    for i in range(40):
        yield '{"effect":{"name":"e%d","map":1}}' % i
        yield '{"field":{"name":"n%d","create":1,"update":3,"listens":["e%d"]}}' % (i, i)
        yield '{"facet":{"name":"f%d","combine":5}}' % i
        if i == 0:
            yield '{"compute":{"name":"i0","facet":"f0","rule":1,"deps":["doc"]}}'
        else:
            yield '{"input":{"name":"i%d","facet":"f%d","value":%d}}' % (i, i, i)
        names += ["n%d" % i, "i%d" % i]
    yield '{"start":{"extensions":[%s]}}' % ",".join('"%s"' % name for name in names)


def declarations(number):
    return ['{"facet":{"name":"d%d","combine":1}}' % i for i in range(number)]


def main():
    number = int(sys.argv[1]) if len(sys.argv) > 1 else 100_000
    bare = ['{"start":{}}']
    without = seconds(bare + updates(number)) - seconds(bare)
    made = list(extended())
    with_all = seconds(made + updates(number)) - seconds(made)
    print(f"{number} updates without extensions: {without:.2f} s")
    print(f"{number} updates with 40 fields and 40 facets: {with_all:.2f} s, {with_all / without:.1f} times")
    for count in (25_000, 50_000, 100_000):
        print(f"{count} declarations: {seconds(declarations(count)):.2f} s")


main()
