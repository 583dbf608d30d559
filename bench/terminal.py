#!/usr/bin/env python3
"""Tries `ccm-edit` in a real terminal: a session of tmux of 40 columns and 5 rows, whose screen is compared.

Usage: bench/terminal.py      needs tmux, and the built program (./build)

It opens a file of two lines, types, moves, deletes, undoes, saves and quits by keys that tmux sends, and compares what the terminal
shows and where its cursor stands with what it should, after each step; then the file's bytes, and that the terminal takes lines
again. It prints each step, and ends with status 1 at the first difference. Steps are more than half a second apart, so that
each is undone by itself.
"""
import os
import shutil
import subprocess
import tempfile
import time

from program import ROOT, end, program

NAME = f"ccm-edit-{os.getpid()}"

# keys as tmux names them, the rows that are shown then, and the cursor's column and row
STEPS = (
    (["H", "i", "Space"], ["Hi one", "two"], (3, 0)),
    (["Down", "End"], ["Hi one", "two"], (3, 1)),
    (["Enter", "漢"], ["Hi one", "two", "漢"], (2, 2)),
    (["BSpace"], ["Hi one", "two"], (0, 2)),
    (["C-z"], ["Hi one", "two", "漢"], (2, 2)),
    (["C-Home"], ["Hi one", "two", "漢"], (0, 0)),
    (["DC"], ["i one", "two", "漢"], (0, 0)),
    (["C-s"], ["i one", "two", "漢"], (0, 0)),
)


def tmux(*words):
    return subprocess.run(["tmux", "-L", NAME, *words], check=True, capture_output=True, text=True).stdout


def shown():
    rows = tmux("capture-pane", "-p", "-t", NAME).rstrip("\n").split("\n")
    column, row = tmux("display-message", "-p", "-t", NAME, "#{cursor_x} #{cursor_y}").split()
    return [it.rstrip() for it in rows if it.rstrip()], (int(column), int(row))


def waited(want):
    """What the terminal shows once it is as wanted, or after five seconds."""
    last = time.time() + 5
    while shown() != want and time.time() < last:
        time.sleep(0.05)
    return shown()


def compare(step, want):
    found = waited(want)
    print(f"{step}: {found}")
    if found != want:
        end(f"{want} was wanted")


def main():
    if not shutil.which("tmux"):
        end("tmux isn't installed: Debian has it as `tmux`")
    program()
    with tempfile.TemporaryDirectory() as folder:
        path = os.path.join(folder, "text")
        with open(path, "w", encoding="utf-8") as file:
            file.write("one\r\ntwo")
        tmux("-f", "/dev/null", "new-session", "-d", "-s", NAME, "-x", "40", "-y", "5", "-c", folder, "sh")
        try:
            tmux("set-option", "-g", "status", "off")
            tmux("resize-window", "-t", NAME, "-x", "40", "-y", "5")
            tmux("send-keys", "-t", NAME, f"PS1=; clear; '{ROOT}/ccm-edit' text; ended=$?; clear; echo ended $ended", "Enter")
            compare("opened", (["one", "two"], (0, 0)))
            for keys, rows, cursor in STEPS:
                time.sleep(0.6)
                tmux("send-keys", "-t", NAME, *keys)
                compare(" ".join(keys), (rows, cursor))
            with open(path, "rb") as file:
                found = file.read()
            if found != "i one\ntwo\n漢".encode():
                end(f"the file has {found!r}")
            tmux("send-keys", "-t", NAME, "C-q")
            compare("C-q", (["ended 0"], (0, 1)))
        finally:
            subprocess.run(["tmux", "-L", NAME, "kill-server"], check=False, capture_output=True)
    print("bench/terminal.py: each step shows what it should")


main()
