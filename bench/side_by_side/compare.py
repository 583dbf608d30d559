#!/usr/bin/env python3
"""Compares `./ccm make N` with two editors on the same workload: CodeMirror 5's `Doc` in node, and Neovim's buffers.

Usage: bench/side_by_side/compare.py [N ..]    1,000, 10,000 and 100,000 transactions where no number is given

The programs run in five rounds for each N. In a round each runs once, and then again and again, always the one that took least
so far, until each took as much processor time as the slowest's first run, or ran 50 times: so those that aren't slowest take
turns, and the slowest runs before them in each round. The same is done for one transaction, to tell what the start takes. For
each program and N the script prints how many transactions it makes in a second of processor time, over all rounds, without the
start (`-` where less than 10 milliseconds are left for a run on average); how many times as many `ccm` makes (`-` where either
rate is), and the least and the most of this among the rounds (`-` where one of them doesn't tell); and the most memory that it
held, in MiB. A program that isn't there is left out, and the script says why. All programs must come to the same length and
number of lines: the script ends with status 1 where they don't.

CODEMIRROR (the path of codemirror.js), NODE and NVIM in the environment name others than the installed ones.
"""
import json
import os
import shutil
import subprocess
import sys
import tempfile

HERE = os.path.dirname(os.path.abspath(__file__))
sys.path.append(os.path.dirname(HERE))

from program import PROGRAM, is_built, watched  # noqa: E402  (it stands in the folder above)

CODEMIRRORS = (
    "/usr/share/javascript/codemirror/lib/codemirror.js",
    "/usr/share/nodejs/codemirror/lib/codemirror.js",
)
ROUNDS = 5
MOST_RUNS = 50  # of one program in a round
SHORTEST = 0.01  # seconds of a run that tell a rate
SECONDS = 600

WHAT_EACH_DOES = """\
Each program inserts, deletes and marks at the same places, keeps what undoing needs, and moves earlier marks over each change.
None draws anything.

ccm           makes each transaction's command, of which it is proved that reading the transaction's line of JSON gives it, and
              makes the reply; keeps the 100 newest groups of changes to undo, joined by the times of the workload; keeps a field
              of marks and one that counts, and the facet that the marks are provided to.
CodeMirror 5  is called by a script in its own process, and finds a place by going through the lines; each change is a step to
              undo, and all are kept; each mark is an object. It has no fields and no facets, and it makes no replies.
Neovim        is called by a script in its own process, and finds a place in its index of lines; the whole run is one step to undo;
              each mark is an extmark. It has no fields and no facets, and it makes no replies."""


class Peer:
    """A program: how it is run for so many transactions, and what is missing where it can't be."""

    def __init__(self, name, command, missing):
        self.name, self.command, self.missing = name, command, missing


def ccm():
    command = (lambda n: [PROGRAM, "make", str(n)]) if is_built() else None
    return Peer("ccm", command, "it isn't built, or a source is newer than it; ./build proves and builds it")


def found(variable, *names):
    """The path of the program that a variable of the environment names, or, where it isn't set, of the first of these names that is
    found."""
    given = os.environ.get(variable)
    return next(filter(None, map(shutil.which, [given] if given else names)), None)


def not_found(variable, packages):
    """Why a program wasn't found: none is where the variable of the environment says, or, where it isn't set, these packages of Debian
    aren't installed."""
    given = os.environ.get(variable)
    return f"there is no program {given}" if given else f"it isn't installed; apt-get install {packages}"


def codemirror():
    node = found("NODE", "node", "nodejs")
    given = os.environ.get("CODEMIRROR")
    path = next((p for p in ((given,) if given else CODEMIRRORS) if os.path.isfile(p)), None)
    there = node and path
    command = (lambda n: [node, os.path.join(HERE, "codemirror5.js"), path, str(n)]) if there else None
    if given and not path:
        missing = f"there is no file {given}"
    elif node:
        missing = "it isn't installed; apt-get install libjs-codemirror"
    else:
        missing = not_found("NODE", "nodejs" if path else "nodejs libjs-codemirror")
    return Peer("CodeMirror 5", command, missing)


def neovim():
    nvim = found("NVIM", "nvim")
    script = os.path.join(HERE, "neovim.lua")
    command = (lambda n: [nvim, "--clean", "--headless", "-n", "-c", f"let g:count = {n}", "-c", f"luafile {script}"]) if nvim else None
    return Peer("Neovim", command, not_found("NVIM", "neovim"))


def run(command):
    """One run: what it wrote, its processor time in seconds, and the most memory that it held, in MiB."""
    with tempfile.TemporaryFile() as out:
        process = subprocess.Popen(command, stdin=subprocess.DEVNULL, stdout=out)
        seconds, memory = watched(process, SECONDS)
        if process.returncode != 0:
            raise SystemExit(f"{' '.join(command)}: status {process.returncode}")
        out.seek(0)
        return out.read().decode(), seconds, memory / (1024 * 1024)


def counted(text):
    """The length and the number of lines that a program wrote."""
    if text.startswith("{"):
        summary = json.loads(text)["ok"]
        return summary["length"], summary["lines"]
    length, lines = text.split()
    return int(length), int(lines)


class Used:
    """What the runs of one program for so many transactions took in a round."""

    def __init__(self):
        self.runs, self.seconds, self.memory, self.ends = 0, 0.0, 0.0, set()

    def run_once(self, command):
        out, seconds, memory = run(command)
        self.runs += 1
        self.seconds += seconds
        self.memory = max(self.memory, memory)
        self.ends.add(counted(out))

    def seconds_a_run(self):
        return self.seconds / self.runs


def one_round(peers, n):
    """What each program took, by its name, in a round in which all take about as long as the slowest."""
    used = {peer.name: Used() for peer in peers}
    for peer in peers:
        used[peer.name].run_once(peer.command(n))
    longest = max(u.seconds for u in used.values())
    while True:
        behind = [p for p in peers if used[p.name].seconds < longest and used[p.name].runs < MOST_RUNS]
        if not behind:
            return used
        peer = min(behind, key=lambda p: used[p.name].seconds)
        used[peer.name].run_once(peer.command(n))


class Round:
    """What the programs took for one transaction, and then for so many."""

    def __init__(self, peers, n):
        self.starts, self.used = one_round(peers, 1), one_round(peers, n)

    def runs(self, name):
        return self.used[name].runs

    def left(self, name):
        """The seconds that the runs of a program took without their starts."""
        return self.used[name].seconds - self.runs(name) * self.starts[name].seconds_a_run()


def rate(rounds, name, n):
    """How many transactions a program makes in a second in some rounds, if it is there and its runs are long enough to tell."""
    if not all(name in a_round.used for a_round in rounds):
        return None
    runs = sum(a_round.runs(name) for a_round in rounds)
    left = sum(a_round.left(name) for a_round in rounds)
    return n * runs / left if left >= runs * SHORTEST else None


def times(rounds, name, n):
    """How many times as many transactions `ccm` makes as a program, if their runs are long enough to tell."""
    mine, theirs = rate(rounds, "ccm", n), rate(rounds, name, n)
    return mine / theirs if mine and theirs else None


def shown(number, form):
    return "-" if number is None else format(number, form)


def beside(rounds, name, n):
    """The columns that tell how many times as many `ccm` makes as another program: over all rounds, and the span of each."""
    if name == "ccm":
        return "", ""
    each = [times([a_round], name, n) for a_round in rounds]
    return shown(times(rounds, name, n), ".2f"), "-" if None in each else f"{min(each):.2f}-{max(each):.2f}"


def print_counts(peers, n):
    """Prints what the programs do for so many transactions, and gives what they came to."""
    rounds = [Round(peers, n) for _ in range(ROUNDS)]
    ends = set()
    for peer in peers:
        used = [a_round.used[peer.name] for a_round in rounds]
        came_to = set().union(*(u.ends for u in used))
        if len(came_to) != 1:
            raise SystemExit(f"{peer.name} came to different documents in its runs")
        ends |= came_to
        (length, lines), = came_to
        ratio, span = beside(rounds, peer.name, n)
        memory = max(u.memory for u in used)
        print(
            f"{peer.name:14}{n:>12,}{shown(rate(rounds, peer.name, n), ',.0f'):>12}{ratio:>8}{span:>14}"
            f"{shown(memory or None, '.0f'):>8}{length:>10,}{lines:>8,}",
            flush=True,
        )
    return ends


def counts_given(words):
    try:
        return [int(word) for word in words]
    except ValueError:
        raise SystemExit(f"compare.py: counts of transactions are numbers, not {' '.join(words)}") from None


def main():
    counts = counts_given(sys.argv[1:]) or [1_000, 10_000, 100_000]
    peers = [ccm(), codemirror(), neovim()]
    for peer in peers:
        if not peer.command:
            print(f"{peer.name} is left out: {peer.missing}", file=sys.stderr)
    there = [peer for peer in peers if peer.command]
    if not there:
        raise SystemExit(1)
    for peer in there:
        run(peer.command(1))  # so that no run that counts is the first one
    print(f"{'':14}{'transactions':>12}{'a second':>12}{'ccm is':>8}{'in a round':>14}{'MiB':>8}{'length':>10}{'lines':>8}")
    ends = [print_counts(there, n) for n in counts]
    print()
    print(WHAT_EACH_DOES)
    if any(len(ends_of) != 1 for ends_of in ends):
        raise SystemExit("the programs came to different documents")


main()
