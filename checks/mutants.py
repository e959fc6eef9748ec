#!/usr/bin/env python3
"""Which definitions of the plain machine the scripts made by chance pin: mutants.py [JOBS] [--scripts N] [--only WORD]

Each definition that mutants_of_*.py name is turned in one way, in a copy. One is noticed if the turned machine answers
a script of random_scripts.py otherwise than the plain machine does: so a program that has the turned definition would be
found out. The program is not asked, and nothing has to be built. A line `NOT NOTICED FILE: WHAT` is printed for each
definition that no script notices, and at the end how many are noticed; the status is 1 if one is not. It takes a
minute or two: run it when plain_*.py, made_*.py or script_maker.py change. `--only` tries those whose names have the word.
The definitions of plain_macros.py are turned too, and are to be noticed by the macros of random_macros.py.
"""
import argparse
import multiprocessing
import pickle
import sys
import types
from pathlib import Path

import mutants_of_arms
import mutants_of_grammar
import mutants_of_lists
import mutants_of_machine
import mutants_of_macros
import mutants_of_pieces
import mutants_of_rules
import mutants_of_stored
import mutants_of_texts
import mutants_of_trees
import mutants_of_written
import random_macros
from random_scripts import SCRIPTS, expected_answers
from script_maker import Script

HERE = Path(__file__).parent
# The files of the plain machine; each one comes after those that it uses.
TABLES = {
    "plain_trees": mutants_of_trees, "plain_lists": mutants_of_lists, "plain_stored": mutants_of_stored,
    "plain_pieces": mutants_of_pieces, "plain_text": mutants_of_texts, "plain_written": mutants_of_written, "plain_rules": mutants_of_rules,
    "plain_grammar": mutants_of_grammar, "plain_arms": mutants_of_arms, "plain_machine": mutants_of_machine,
}
# All files that it loads anew. Of plain_macros.py it turns nothing here.
LOADED = [*list(TABLES)[:8], "plain_macros", *list(TABLES)[8:]]
# The place of an answer that a turned machine does not give.
NO_ANSWER = ["no answer"]
# The scripts, in a process that judges mutants.
kept = []


def scripts_of(count):
    """So many scripts with their answers, each as bytes, those first that are short."""
    scripts = []
    for seed in range(count):
        commands = Script(seed).commands
        answers = [answer for _, answer in expected_answers(commands)]
        scripts.append(pickle.dumps(list(zip(commands, answers))))
    return sorted(scripts, key=len)


def load(turned=None, old="", new=""):
    """The plain machine anew, with one definition turned, or none."""
    for name in LOADED:
        text = (HERE / f"{name}.py").read_text()
        if name == turned:
            if text.count(old) != 1:
                raise ValueError(f"{name}.py has {old!r} {text.count(old)} times")
            text = text.replace(old, new) + TABLES[name].HELPERS
        module = sys.modules[name] = types.ModuleType(name)
        module.__file__ = str(HERE / f"{name}.py")
        exec(compile(text, name, "exec"), vars(module))  # pylint: disable=exec-used
    return sys.modules["plain_machine"].Machine


def answer_of(machine, command):
    """What the machine answers, if it does."""
    try:
        return machine.answer(*command)
    except Exception:  # pylint: disable=broad-exception-caught
        return NO_ANSWER


def is_noticed(new_machine, script):
    """Whether the machine answers the script otherwise."""
    machine = new_machine()
    # The values of the script become those of the modules that the machine uses.
    return any(answer_of(machine, command) != answer for command, answer in pickle.loads(script))


def keep(scripts):
    """Keeps the scripts in a process that judges mutants."""
    kept.extend(scripts)


def judged(mutant):
    """The mutant's file, what it turns, and whether a script notices it."""
    name, (what, old, new) = mutant
    machine = load(name, old, new)
    return name, what, any(is_noticed(machine, script) for script in kept)


def load_macros(old="", new=""):
    """Brute force anew, with one definition turned, or none."""
    text = (HERE / "plain_macros.py").read_text()
    if old and text.count(old) != 1:
        raise ValueError(f"plain_macros.py has {old!r} {text.count(old)} times")
    module = types.ModuleType("plain_macros")
    exec(compile(text.replace(old, new) if old else text, "plain_macros", "exec"), vars(module))  # pylint: disable=exec-used
    return module


def macro_answer(seed):
    """What brute force answers on the macro of a seed, if it does."""
    try:
        return random_macros.example(seed)
    except Exception:  # pylint: disable=broad-exception-caught
        return NO_ANSWER


def is_noticed_by_macros(old, new, answers):
    """Whether brute force, with one definition turned, answers the macros otherwise."""
    random_macros.plain_macros = load_macros(old, new)
    return any(macro_answer(seed) != answer for seed, answer in enumerate(answers))


def macros_noticed(only):
    """How many definitions of brute force are noticed, and how many there are."""
    random_macros.plain_macros = load_macros()
    answers = [macro_answer(seed) for seed in range(random_macros.MACROS)]
    mutants = [mutant for mutant in mutants_of_macros.MUTANTS if only in mutant[0]]
    noticed = 0
    for what, old, new in mutants:
        is_seen = is_noticed_by_macros(old, new, answers)
        noticed += is_seen
        if not is_seen:
            print(f"NOT NOTICED plain_macros.py: {what}", flush=True)
    return noticed, len(mutants)


def main():
    """Tries each mutant."""
    parser = argparse.ArgumentParser()
    parser.add_argument("jobs", type=int, nargs="?", default=2)
    parser.add_argument("--scripts", type=int, default=SCRIPTS)
    parser.add_argument("--only", default="")
    asked = parser.parse_args()
    mutants = [(name, mutant) for name, table in TABLES.items() for mutant in table.MUTANTS if asked.only in mutant[0]]
    scripts, noticed = scripts_of(asked.scripts), 0
    if any(is_noticed(load(), script) for script in scripts):
        sys.exit("the scripts notice the machine where nothing is turned")
    with multiprocessing.Pool(asked.jobs, keep, (scripts,)) as pool:
        for name, what, is_seen in pool.imap_unordered(judged, mutants):
            noticed += is_seen
            if not is_seen:
                print(f"NOT NOTICED {name}.py: {what}", flush=True)
    more, all_macros = macros_noticed(asked.only)
    noticed, count = noticed + more, len(mutants) + all_macros
    print(f"{noticed} of {count} mutants are noticed")
    sys.exit(noticed != count)


if __name__ == "__main__":
    main()
