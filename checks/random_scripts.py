#!/usr/bin/env python3
"""Scripts made by chance, whose answers a plain machine knows: random_scripts.py PROGRAM [--first SEED] [--scripts N]

The program has to answer as the machine of plain_machine.py does, which packs nothing and shares no code with it. A line
is printed for each hundred scripts, `ok NAME`, and one for each script that was answered otherwise, `FAILED NAME: WHY`;
the status is 1 if there was one. The same seeds make the same scripts.
"""
import argparse
import subprocess
import sys

from made_values import FEW_SLOTS
from plain_arms import TooManyUnits
from plain_machine import Header, Machine
from plain_trees import Ident, Literal, Punct, header_words, leaf_words, size
from script_maker import Script

SCRIPTS = 500
# Scripts to one line that is printed.
BATCH = 100
# A script ends when a tree or the builder has more tokens, or a macro takes an input that is too long for brute force.
MOST_TOKENS = 4000


def spelled(value):
    """The words by which the language spells a value of a command."""
    if isinstance(value, Header):
        return [header_words(*value)]
    if isinstance(value, (Punct, Ident, Literal)):
        return [leaf_words(value)]
    return map(str, value) if isinstance(value, list) else [str(value)]


def is_large(machine):
    """Whether the machine holds more than is looked at here."""
    held = [size((tree,)) for tree in machine.slots[:FEW_SLOTS] if tree is not None]
    return max(held, default=0) > MOST_TOKENS or machine.builder is not None and machine.builder.held() > MOST_TOKENS


def expected_answers(commands):
    """Each line of the script, with the answer of the plain machine."""
    machine = Machine()
    for command in commands:
        try:
            answer = machine.answer(*command)
        except TooManyUnits:
            return
        yield " ".join(word for value in command for word in spelled(value)), answer
        if is_large(machine):
            return


def difference(program, seed):
    """Where the program answers something else, or nothing."""
    expected = list(expected_answers(Script(seed).commands))
    script = "".join(line + "\n" for line, _ in expected)
    # As bytes, since Python takes a carriage return before a line feed out of what it reads as text.
    done = subprocess.run([program], input=script.encode(), capture_output=True, timeout=120, check=False)
    found, place = done.stdout.decode(errors="backslashreplace"), 0
    for number, (line, answer) in enumerate(expected, 1):
        wanted = "".join(text + "\n" for text in answer)
        if not found.startswith(wanted, place):
            return f"line {number}, {line[:80]}: {found[place:place + len(wanted)]!r} in place of {wanted!r}"[:400]
        place += len(wanted)
    if place != len(found) or done.returncode != 0:
        return f"status {done.returncode}, and {found[place:]!r} behind the answers"[:400]
    return None


def main():
    """Tries the scripts of some seeds one after the other."""
    parser = argparse.ArgumentParser()
    parser.add_argument("program")
    parser.add_argument("--first", type=int, default=0)
    parser.add_argument("--scripts", type=int, default=SCRIPTS)
    asked = parser.parse_args()
    failed = 0
    for first in range(asked.first, asked.first + asked.scripts, BATCH):
        seeds = range(first, min(first + BATCH, asked.first + asked.scripts))
        wrong = [(seed, why) for seed in seeds if (why := difference(asked.program, seed))]
        for seed, why in wrong:
            print(f"FAILED script {seed}: {why}")
        if not wrong:
            print(f"ok scripts {seeds[0]} to {seeds[-1]}")
        failed += len(wrong)
    sys.exit(failed > 0)


if __name__ == "__main__":
    main()
