#!/usr/bin/env python3
"""Times the packed form on one tree or on many in turn, alone or beside another program: compare.py [OPTION]..

For each tree of items.py and each mode it runs `bench_store MODE ROUNDS`, and prints the least time of all turns, in
nanoseconds for a token (for a child of the top if the mode is skip). With --together the lists of all the files follow one
another, so each round works on the next tree, and the times are for a token of all of them. With
--other the two programs take turns on the same trees, so that what disturbs one disturbs the other, and the ratio of
their times is printed too.

The other program is a command, in which the mode, the rounds, the size and the profile replace MODE, ROUNDS, SIZE and PROFILE:
--other 'one MODE ROUNDS SIZE PROFILE'. Its standard input has the lines of the tree, which it need not read. It prints
what bench_store prints: nanoseconds, sum, bytes, parts and symbols.
"""
import argparse
import re
import shlex
import subprocess
import sys
import tempfile
from pathlib import Path
from typing import NamedTuple

import items

MODES = "pack build rewrite flat flat_whole skip siblings siblings_whole walk show equal fold clone drop"
# In these modes two programs that read the same tree print the same sum.
SUMS_AGREE = {"flat", "skip", "siblings", "siblings_whole", "walk", "show", "equal"}
# Instructions are counted over so many tokens at least.
FEW_TOKENS = 2_000
CRATE = Path(__file__).resolve().parent.parent / "crates" / "bench_store"
OURS = CRATE / "out" / "bench_store"


class Trees(NamedTuple):
    """One tree, or many that are worked on in turn, and the file that has their lines."""
    profile: str
    count: int
    size: int
    children: int
    path: Path

    def units(self, mode):
        """What the time of a lap is divided by, which is a round on each tree."""
        return self.children if mode == "skip" else self.size


class Answer(NamedTuple):
    """What a program printed."""
    nanos: int
    sum: int
    sizes: tuple


def tree(profile, size, folder):
    """The tree of that profile and size. Its file is kept from an earlier run, or written."""
    path = folder / f"{profile.replace(':', '-')}-{size}.items"
    if not path.exists():
        text = "".join(line + "\n" for line in items.lines(size, profile))
        path.write_text(text, encoding="utf-8", newline="\n")
    return read_trees(profile, path)


def together(paths, folder):
    """The trees of all the files, in one file."""
    strung = folder / "together.items"
    # a last line may have no line feed
    strung.write_bytes(b"".join(path.read_bytes().rstrip(b"\n") + b"\n" for path in paths))
    return read_trees("together", strung)


def read_trees(profile, path):
    """The trees of a file of `item` lines: each token is followed by as many as it holds, and what they hold."""
    count = size = children = tree_end = child_end = 0
    with path.open(encoding="utf-8", newline="\n") as lines:
        for size, line in enumerate(lines, 1):
            end = size + (int(line.rsplit(" ", 1)[1]) if line.startswith("item sub ") else 0)
            if size > tree_end:
                count, tree_end, child_end = count + 1, end, size
            elif size > child_end:
                children, child_end = children + 1, end
    return Trees(profile, count, size, children, path)


class Program:
    """A program to be timed."""

    def __init__(self, command):
        self.command = command

    def words(self, mode, rounds, on):
        asked = {"MODE": mode, "ROUNDS": str(rounds), "SIZE": str(on.size), "PROFILE": on.profile}
        return [asked.get(word, word) for word in self.command]

    def answer(self, mode, rounds, on):
        """What the program prints, or nothing where it fails."""
        with on.path.open("rb") as lines:
            done = subprocess.run(self.words(mode, rounds, on), stdin=lines, capture_output=True, text=True)
        if done.returncode != 0:
            return None
        nanos, total, *sizes = map(int, done.stdout.split())
        return Answer(nanos, total, tuple(sizes))

    def instructions(self, mode, rounds, on):
        """How many instructions the program takes in all, as callgrind counts them."""
        under = ["valgrind", "--tool=callgrind", "--callgrind-out-file=/dev/null"]
        with on.path.open("rb") as lines:
            words = under + self.words(mode, rounds, on)
            done = subprocess.run(words, stdin=lines, capture_output=True, text=True)
        counted = re.search(r"Collected : (\d+)", done.stderr)
        return int(counted.group(1)) if done.returncode == 0 and counted else None


def least_times(programs, mode, on, options):
    """The least time of each program for a unit, and whether their sums agree."""
    units = on.units(mode)
    laps = max(2, options.work // units)
    rounds = laps * on.count
    answers = [[] for _ in programs]
    for _ in range(options.turns):
        for program, found in zip(programs, answers):
            found.append(program.answer(mode, rounds, on))
    times = [None if None in found else min(it.nanos for it in found) / laps / units for found in answers]
    sums = {it.sum for found in answers for it in found if it is not None}
    return times, mode not in SUMS_AGREE or len(sums) < 2


def counts(programs, mode, on):
    """The instructions of each program for a unit: the difference of two numbers of laps."""
    few = max(2, FEW_TOKENS // on.size)
    many = 4 * few
    found = []
    for program in programs:
        first, second = (program.instructions(mode, laps * on.count, on) for laps in (few, many))
        wanted = first is not None and second is not None
        found.append((second - first) / (many - few) / on.units(mode) if wanted else None)
    return found


def sizes_line(name, answer, on):
    """What a program stores for the trees."""
    stored, parts, symbols = answer.sizes
    return f"  {name}: {stored} bytes, {stored / on.size:.2f} a token, {parts} parts, {symbols} symbols"


def report(programs, on, options):
    """Prints the table of one tree, or of many in turn."""
    print(f"{on.profile}, {on.size} tokens" + f" of {on.count} trees" * (on.count > 1))
    for name, program in zip(("bench_store", "other"), programs):
        answer = program.answer("clone", 2, on)
        if answer is not None:
            print(sizes_line(name, answer, on))
    for mode in options.modes.split():
        if options.instructions:
            numbers, agree = counts(programs, mode, on), True
        else:
            numbers, agree = least_times(programs, mode, on, options)
        line = f"  {mode:15}"
        line += "".join("         -" if number is None else f"{number:10.3f}" for number in numbers)
        if len(numbers) == 2 and None not in numbers and numbers[1] > 0:
            line += f"  ratio {numbers[0] / numbers[1]:.2f}"
        if not agree:
            line += "  sums differ"
        print(line, flush=True)


def build():
    """Proves and builds our program, which then runs on a small tree."""
    with (CRATE / "stdin").open("rb") as lines:
        subprocess.run(["rt", "run", "--", "pack", "0"], cwd=CRATE, stdin=lines, stdout=sys.stderr, check=True)


def parsed():
    about, form = __doc__.split("\n\n", 1)
    plain = argparse.RawDescriptionHelpFormatter
    options = argparse.ArgumentParser(description=about, epilog=form, formatter_class=plain)
    options.add_argument("--other", type=shlex.split, help="the command of another program")
    options.add_argument("--ours", default=OURS, help="our program, if not the one that was built last")
    options.add_argument("--profiles", default="mix many-parts deep", help="profiles of items.py")
    options.add_argument("--sizes", default="1000 100000", help="numbers of tokens")
    options.add_argument("--items", type=Path, nargs="+", help="files of item lines, in place of made trees")
    options.add_argument("--together", type=Path, nargs="+", help="files of item lines, whose trees take turns")
    options.add_argument("--modes", default=MODES, help="modes of bench_store")
    options.add_argument("--turns", type=int, default=3, help="how often each program is run")
    options.add_argument("--work", type=int, default=5_000_000, help="tokens of all rounds of a run")
    options.add_argument("--apart", action="store_true", help="each text of ours has a block of its own")
    options.add_argument("--instructions", action="store_true", help="count instructions by callgrind, and no time")
    options.add_argument("--keep", type=Path, help="a folder where the trees are kept for the next run")
    return options.parse_args()


def asked_for(options, folder):
    """The trees that the options name, or else made ones."""
    for path in options.items or []:
        yield read_trees(path.stem, path)
    if options.together:
        yield together(options.together, folder)
    if not options.items and not options.together:
        for profile in options.profiles.split():
            for size in map(int, options.sizes.split()):
                yield tree(profile, size, folder)


def main():
    options = parsed()
    if options.ours == OURS and not OURS.exists():
        build()
    programs = [Program([str(options.ours), "MODE", "ROUNDS"] + ["apart"] * options.apart)]
    if options.other:
        programs.append(Program(options.other))
    with tempfile.TemporaryDirectory() as passing:
        folder = options.keep or Path(passing)
        folder.mkdir(parents=True, exist_ok=True)
        for trees in asked_for(options, folder):
            report(programs, trees, options)


if __name__ == "__main__":
    main()
