#!/usr/bin/env python3
"""Runs over input that is no command, and over reads and writes that are short or fail: hostile_runs.py PROGRAM LIBRARY

PROGRAM answers commands, and LIBRARY is checks/short.c. A line is printed for each thing that is tried, `ok NAME` or
`FAILED NAME: WHY`; the status is 1 if one failed.
"""
import itertools
import os
import subprocess
import sys

# Each is line 1 of a run.
BAD_LINES = (
    b"", b"show 00", b"show 16", b"show  0", b"restore 18446744073709551616",
    b"item punct alone 0:0@0..0#0 ab", b"item lit int 2 0:0@0..0#0 1", "item lit int 1 0:0@0..0#0 é".encode(),
    b"item ident plain 0:0@0..0#0", b"show \xff",
)

# Together they have each command.
SCRIPTS = ("stored", "saved", "siblings", "walk", "builder", "append", "counts", "texts", "edits", "rewrite", "macro", "arms", "rust")
COMMANDS = (
    "item clear list new open push close append alone unwrap point restore expected counts build skip copy kind spans set"
    " ids rewrite expand arms read text show pretty debug flat siblings walk glue split bytes parts symbols equal save load"
).split()

# Their answers end with a line `end`, if the slot is not empty; all others are one line.
LONG_ANSWERS = ("debug", "flat", "siblings", "walk", "parts", "symbols")


class Wrong(Exception):
    """What a run did, and should not have."""


def run(program, script, given=None):
    """The status of a run, what it wrote, and its errors."""
    done = subprocess.run([program], input=script, env=given or {}, capture_output=True, timeout=60, check=False)
    return done.returncode, done.stdout, done.stderr


def wants(what, found, expected):
    """Refuses what a run did, if it is not the expected."""
    if found != expected:
        raise Wrong(f"{what}: {found!r} in place of {expected!r}")


class Script:
    """A script of examples/, and what it has to write."""

    def __init__(self, name):
        path = os.path.join(os.path.dirname(os.path.abspath(__file__)), "..", "examples", name)
        with open(path + ".tt", "rb") as file:
            self.text = file.read()
        with open(path + ".out", "rb") as file:
            self.answers = file.read()
        self.status = 1 if os.path.exists(path + ".status") else 0

    def verbs(self):
        """The first word of each line."""
        return [line.split(b" ")[0].decode() for line in self.text.splitlines()]

    def answers_to(self, lines):
        """The answers to the first lines."""
        left = iter(self.answers.splitlines(keepends=True))
        found = []
        for verb in self.verbs()[:lines]:
            found.append(next(left))
            if verb in LONG_ANSWERS and found[-1] not in (b"empty\n", b"end\n"):
                found += itertools.takewhile(lambda line: line != b"end\n", left)
                found.append(b"end\n")
        return b"".join(found)


def bad_lines(program, _library):
    """Each bad line in front of all others."""
    for line in BAD_LINES:
        wants(f"{line!r}", run(program, line + b"\nshow 0\n"), (1, b"bad line 1\n", b""))
    one_space = run(program, b"item ident plain 0:0@0..0#0 \n")
    wants("an empty text", one_space, (0, b"ok\n", b""))


def every_command(_program, _library):
    """The scripts have each command."""
    found = {verb for name in SCRIPTS for verb in Script(name).verbs()}
    wants("commands that no script has", sorted(set(COMMANDS) - found), [])


def reads_of_one_byte(name):
    """The script, read byte by byte and written in threes, at first without a failure, and then with each read failing."""
    def tried(program, library):
        script = Script(name)
        preloaded = {"LD_PRELOAD": library}
        wants("short reads", run(program, script.text, preloaded), (script.status, script.answers, b""))
        last_line = len(script.verbs()) - 1 if script.status else len(script.verbs())
        for read in range(len(script.text) + 1):
            lines = script.text[:read].count(b"\n")
            if lines > last_line:
                break
            failed = run(program, script.text, {**preloaded, "FAIL_READ": str(read + 1)})
            wants(f"read {read + 1} fails", failed, (1, script.answers_to(lines), b"read failed\n"))
    return tried


def failing_writes(name):
    """The script with each write failing: what was written before stays, and no answer reports the failure."""
    def tried(program, library):
        script = Script(name)
        for write in itertools.count(1):
            given = {"LD_PRELOAD": library, "FAIL_WRITE": str(write)}
            status, written, errors = run(program, script.text, given)
            if written == script.answers:
                break
            wants(f"write {write} fails", (status, errors), (1, b""))
            wants(f"before write {write}", written, script.answers[: len(written)])
        wants("no write fails", (status, errors), (script.status, b""))
        if write <= len(script.answers) / 3:
            raise Wrong(f"{write - 1} writes of three bytes at most")
    return tried


def judged(name, tried):
    """Whether it went as it has to, which is printed."""
    try:
        tried(*sys.argv[1:])
        print(f"ok {name}")
        return True
    except (Wrong, subprocess.TimeoutExpired, StopIteration) as why:
        print(f"FAILED {name}: {why}")
        return False


def main():
    """Tries one thing after the other."""
    fine = [judged("bad lines", bad_lines), judged("every command", every_command)]
    for name in SCRIPTS:
        fine.append(judged(f"failing reads of {name}", reads_of_one_byte(name)))
        fine.append(judged(f"failing writes of {name}", failing_writes(name)))
    sys.exit(not all(fine))


main()
