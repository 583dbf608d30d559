#!/usr/bin/env python3
"""Measures what it takes to make a text of characters, and to read the characters of a text.

Usage: bench/texts.py

It writes a small program over the crate line_tree to a temporary folder, and has the toolchain's `rt` prove and build it
there, which takes some minutes. The program makes 16,000,000 characters, in lines of 40, and then does one thing ten times: it
copies the characters, makes a text of them (`Text::of`, after its length was found by `cut_len`), or reads the characters of such a text (`Text::chars`). The script
prints the processor time of one of each, and the ratios to a plain copy. A time is the least of three runs.
"""
import os
import resource
import shutil
import subprocess
import sys
import tempfile

ROOT = os.path.dirname(os.path.dirname(os.path.abspath(__file__)))
TIMES = 10

PROGRAM = """//! Does one thing ten times, by the count of its words: none, copies, texts, characters of a text.
#![tactic(auto)]

use line_tree::{Text, cut_len};
use std::alloc::{AllocError, Global};
use std::{env, io};

fn characters(alloc: Global) -> Result<Vec<char>, AllocError> {
    let mut characters = Vec::with_capacity(alloc, 16_000_000)?;
    for _ in 0..400_000u32 {
        for _ in 0..39u32 {
            characters.push('x')?;
        }
        characters.push('\\n')?;
    }
    Ok(characters)
}

fn copies(alloc: Global, characters: &[char]) -> Result<usize, AllocError> {
    let mut last = 0;
    for _ in 0..10u32 {
        last = Vec::from_slice(alloc, characters)?.len();
    }
    Ok(last)
}

fn text(alloc: Global, characters: &[char]) -> Result<Text, AllocError> {
    if cut_len(characters) > 16_777_216 {
        return Err(AllocError);
    }
    Text::of(alloc, characters)
}

fn texts(alloc: Global, characters: &[char]) -> Result<u32, AllocError> {
    let mut last = 0;
    for _ in 0..10u32 {
        last = text(alloc, characters)?.len();
    }
    Ok(last)
}

fn readings(text: &Text) -> Result<usize, AllocError> {
    let mut last = 0;
    for _ in 0..10u32 {
        last = text.chars()?.len();
    }
    Ok(last)
}

fn main(rt: HostRuntime) -> io::Result<()> {
    let words = env::args(&rt)?.skip(1).count();
    let characters = characters(rt.alloc())?;
    if words == 1 {
        let len = copies(rt.alloc(), characters.as_slice())?;
        println!(rt; "{len}")?;
    } else if words == 2 {
        let len = texts(rt.alloc(), characters.as_slice())?;
        println!(rt; "{len}")?;
    } else if words == 3 {
        let text = text(rt.alloc(), characters.as_slice())?;
        let len = readings(&text)?;
        println!(rt; "{len}")?;
    } else if words == 4 {
        let text = text(rt.alloc(), characters.as_slice())?;
        println!(rt; "{}", text.len())?;
    }
    Ok(())
}
"""


def built(folder):
    """The program, proved and built over this repository's crate line_tree."""
    subprocess.run(["git", "init", "-q", folder], check=True)
    shutil.copytree(f"{ROOT}/crates/line_tree", f"{folder}/crates/line_tree")
    os.makedirs(f"{folder}/crates/measured/src")
    with open(f"{folder}/crates.txt", "w", encoding="utf-8") as crates:
        crates.write("line_tree:\nmeasured: line_tree\n")
    with open(f"{folder}/crates/measured/src/main.rt", "w", encoding="utf-8") as program:
        program.write(PROGRAM)
    ran = subprocess.run(["rt", "run"], cwd=f"{folder}/crates/measured", capture_output=True, text=True, check=False)
    if ran.returncode != 0:
        sys.exit(f"bench/texts.py: the program isn't proved:\n{ran.stdout[-2000:]}{ran.stderr[-4000:]}")
    return f"{folder}/crates/measured/out/measured"


def seconds(program, words):
    """The least processor time of three runs with so many words."""
    least = None
    for _ in range(3):
        before = resource.getrusage(resource.RUSAGE_CHILDREN)
        subprocess.run([program] + ["on"] * words, stdout=subprocess.DEVNULL, check=True)
        after = resource.getrusage(resource.RUSAGE_CHILDREN)
        spent = after.ru_utime + after.ru_stime - before.ru_utime - before.ru_stime
        least = spent if least is None else min(least, spent)
    return least


def main():
    with tempfile.TemporaryDirectory() as folder:
        program = built(folder)
        none, copies, texts, readings, one = (seconds(program, words) for words in range(5))
    copy = (copies - none) / TIMES
    print(f"a copy of 16,000,000 characters: {copy * 1000:.1f} ms")
    for name, spent in (("cut_len and Text::of", (texts - none) / TIMES), ("Text::chars", (readings - one) / TIMES)):
        print(f"{name}: {spent * 1000:.1f} ms, {spent / copy:.1f} times")


main()
