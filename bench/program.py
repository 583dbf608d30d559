"""What the scripts of this folder share: the proved program, and a run of it over some input."""
import functools
import glob
import os
import subprocess
import sys
import tempfile
import time

ROOT = os.path.dirname(os.path.dirname(os.path.abspath(__file__)))
PROGRAM = os.path.join(ROOT, "crates", "ccm", "out", "ccm")


def end(why):
    """Ends the script that runs, with status 1."""
    sys.exit(f"{os.path.relpath(os.path.abspath(sys.argv[0]), ROOT)}: {why}")


def sources():
    """The files from which the program is built."""
    yield os.path.join(ROOT, "crates.txt")
    for kind in ("src", "specs", "proofs"):
        for path in glob.iglob(f"{ROOT}/crates/*/{kind}/**", recursive=True):
            if os.path.isfile(path):
                yield path


def is_built():
    """Whether the proved program is there, and no source is newer than it."""
    return os.access(PROGRAM, os.X_OK) and max(map(os.path.getmtime, sources())) <= os.path.getmtime(PROGRAM)


@functools.cache
def program():
    """The path of the proved program."""
    if not is_built():
        end("the program isn't built, or a source is newer than it: run ./build first")
    return PROGRAM


def held(pid):
    """The most memory that a process held so far, in bytes. What `wait4` tells is no less than this script held then."""
    try:
        with open(f"/proc/{pid}/status", encoding="ascii", errors="replace") as status:
            return next((int(line.split()[1]) * 1024 for line in status if line.startswith("VmHWM:")), None)
    except OSError:
        return None


def watched(child, seconds=None):
    """Waits for a process, at most so many seconds: its processor time in seconds, and the most memory that it held, in bytes."""
    start, memory = time.monotonic(), 0
    while True:
        pid, status, usage = os.wait4(child.pid, os.WNOHANG)
        if pid:
            child.returncode = os.waitstatus_to_exitcode(status)
            return usage.ru_utime + usage.ru_stime, memory
        memory = held(child.pid) or memory
        if seconds and time.monotonic() - start > seconds:
            child.kill()
            os.wait4(child.pid, 0)
            raise SystemExit(f"{child.args[0]}: no answer within {seconds} seconds")
        time.sleep(0.001)


def run(words, lines, folder, out):
    """One run in a folder: its processor time in seconds, and the most memory that it held, in bytes."""
    with tempfile.TemporaryFile() as script:
        script.writelines(line.encode() for line in lines)
        script.seek(0)
        child = subprocess.Popen([program(), *words], stdin=script, stdout=out, cwd=folder)
        used = watched(child)
    if child.returncode != 0:
        end(f"ccm {' '.join(words)} ended with status {child.returncode}")
    return used


def refusal(replies):
    """The first refusal among replies, if there is one."""
    replies.seek(0)
    return next((reply for reply in replies if reply.startswith(b'{"no"')), None)


def least(words, lines, folder=None, times=3):
    """The least processor time of some runs, in seconds, and the most memory of them, in bytes.

    A run before these, which isn't measured, ends the script where a line is refused.
    """
    lines = list(lines)
    with tempfile.TemporaryFile() as replies:
        run(words, lines, folder, replies)
        refused = refusal(replies)
    if refused:
        end(f"a line was refused: {refused.decode().strip()}")
    runs = [run(words, lines, folder, subprocess.DEVNULL) for _ in range(times)]
    return min(r[0] for r in runs), max(r[1] for r in runs)
