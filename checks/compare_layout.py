#!/usr/bin/env python3
"""How much rustfmt changes in what `cuvolemin expand` lays out: compare_layout.py PROGRAM FOLDER..

Each Rust file in a FOLDER is expanded twice, laid out and with --one-line. Both texts must have the same tree, as PROGRAM prints trees. Then
rustfmt formats both, and the file itself. It prints how many lines rustfmt changes in each, of the files that rustfmt reads and whose calls
are expanded, and each file whose trees differ. No part of the gate: it needs rustfmt and real sources.
"""
import difflib
import multiprocessing
import pathlib
import re
import subprocess
import sys

PLACE = re.compile(r" \d+:\d+\.\.\d+:\d+")
SECONDS = 60


def run(*words, given=b""):
    """The status of a run, and what it wrote; status 1 if it takes too long."""
    try:
        done = subprocess.run(words, input=given, capture_output=True, timeout=SECONDS, check=False)
    except subprocess.TimeoutExpired:
        return 1, b""
    return done.returncode, done.stdout


def tree(program, text):
    """The lines of a text's tree without places, in which a comment that documents something is an attribute; empty if it has none."""
    return PLACE.sub("", run(program, "tree", "-", given=text)[1].decode())


def changed(text):
    """How many lines of a text rustfmt replaces; None if it does not read the text."""
    status, formatted = run("rustfmt", "--edition", "2021", "--quiet", given=text)
    if status != 0:
        return None
    before, after = text.decode().splitlines(), formatted.decode().splitlines()
    match = difflib.SequenceMatcher(None, before, after, autojunk=False)
    return sum(max(b - a, d - c) for kind, a, b, c, d in match.get_opcodes() if kind != "equal")


def judge(job):
    """What is found of a file: None if it is not read or has no calls that are expanded, else the lines changed, or what is wrong."""
    program, path = job
    source = path.read_bytes()
    if b"macro_rules" not in source:
        return None
    status, laid = run(program, "expand", "-", given=source)
    plain = run(program, "expand", "--one-line", "-", given=source)[1]
    if status != 0 or plain == source:
        return None
    if tree(program, laid) != tree(program, plain):
        return f"{path}: another tree"
    counts = [changed(text) for text in (source, laid, plain)]
    return None if None in counts else counts


def main():
    """Judges the files, side by side."""
    program, folders = sys.argv[1], sys.argv[2:]
    jobs = [(program, path) for folder in folders for path in sorted(pathlib.Path(folder).rglob("*.rs"))]
    with multiprocessing.Pool() as pool:
        found = [it for it in pool.imap_unordered(judge, jobs, 8) if it is not None]
    for wrong in [it for it in found if isinstance(it, str)]:
        print(wrong)
    counts = [it for it in found if not isinstance(it, str)]
    lines = [sum(column) for column in zip(*counts)]
    print(f"{len(jobs)} files, {len(counts)} counted; lines that rustfmt changes in the files, laid out, on one line: {lines}")


if __name__ == "__main__":
    main()
