#!/usr/bin/env python3
"""Macros made by chance, expanded by rustc too: compare_macros.py PROGRAM [--first SEED] [--macros N] [--rustc RUSTC]

PROGRAM is `bench_texts`. Each macro is given to rustc with `stringify!` round the templates of its arms, and what that prints is
compared with what `show` does, spaces put aside. It prints how many agree by their results, how many rustc refuses as a local
ambiguity while the program goes on, and each macro for which the answers differ, or the tokens at which a fault shows. Fragments that
rustc parses (`block`) and those after which it allows only some tokens (`vis`) are left out. No part of the gate: it needs rustc.
"""
import argparse
import collections
import json
import re
import subprocess
import sys
import tempfile
from pathlib import Path

import random_macros

random_macros.FRAGMENTS = ["tt", "tt", "ident", "literal", "lifetime"]
BATCH = 400
# What rustc says if the program says that.
SAME = [
    ("no match", ["no rules expected", "unexpected end"]), ("lengths", ["repeats"]), ("no round", ["must repeat at least once"]),
    ("still repeats", ["still repeating"]), ("nothing repeats", ["containing no syntax variables"]),
]
AMBIGUITY = "rustc: local ambiguity, where the program goes on"
LESS_FAR = "rustc: an arm that comes less far, where another takes a subtree by `tt`"
NO_LITERAL = "rustc: an error of its own at a `-` without a literal"


# The lines of a crate whose main prints what each of these becomes, by the number of its macro.
def crate_of(made):
    lines = ["#![allow(unused_macros, unused_macro_rules)]"]
    for number, (arms, given, _) in made.items():
        lines.append(f"macro_rules! m{number} {{ {arms} }}")
    lines.append("fn main() {")
    for number, (arms, given, _) in made.items():
        lines.append(f'println!("{number} {{:?}}", m{number}!({given}));')
    lines.append("}")
    return lines


# The arms with `stringify!` round what each template holds.
def told(arms):
    return re.sub(r"\) => \{(.*?)\}(?= ; \(|$)", lambda m: f") => {{ stringify!({m.group(1)}) }}", arms)


# How many tokens of an input are before a column of its text; there are spaces between its tokens and brackets.
def place_at(given, column):
    place = start = 0
    for word in given.split(" "):
        if start >= column:
            break
        if word.startswith("'"):
            place += 2
        elif word not in ("", ")", "]", "}"):
            place += 1 if word[0].isalnum() or word[0] in '_"([{' else len(word)
        start += len(word) + 1
    return place


# The numbers of macros in which rustc finds something wrong, what, and how many tokens of the input are before it.
def errors_of(rustc, room, made):
    source, program = room / "main.rs", room / "main"
    lines = crate_of(made)
    source.write_text("\n".join(lines))
    ran = subprocess.run([rustc, "--error-format=short", "-o", program, source], capture_output=True, text=True, check=False)
    wrong = {}
    for line in ran.stderr.splitlines():
        found = re.match(r".*main\.rs:(\d+):(\d+): error(?:\[\w+\])?: (.*)", line)
        if found:
            told = lines[int(found.group(1)) - 1]
            number = re.search(r"\bm(\d+)\b", told)
            if number:
                call = f"m{number.group(1)}!("
                column = int(found.group(2)) - 1 - told.index(call) - len(call) if call in told else 0
                wrong.setdefault(int(number.group(1)), (found.group(3), place_at(made[int(number.group(1))][1], column)))
    return wrong, ran.returncode == 0


# What rustc prints of each macro, or its error.
def answers(rustc, room, made):
    left = dict(made)
    said = {}
    for _ in range(8):
        wrong, built = errors_of(rustc, room, left)
        if built:
            ran = subprocess.run([room / "main"], capture_output=True, text=True, check=True)
            for line in ran.stdout.splitlines():
                number, _, text = line.partition(" ")
                said[int(number)] = ("tree", json.loads(text))
            return said
        if not wrong:
            sys.exit("rustc refuses the crate, and names no macro")
        for number, (why, place) in wrong.items():
            said[number] = ("error", why, place)
            del left[number]
    sys.exit("rustc finds something wrong each time")


# How the two compare.
def kind(arms, wanted, got):
    if got[0] == "tree":
        printed = re.sub(r"[\s)\]}]", "", got[1])
        words = [word for word in wanted.split(" ") if not re.fullmatch(r"<\d+", word)]
        shown = "".join(word[0] if re.fullmatch(r"[(\[{]\d+", word) else word for word in words)
        return "agree: tree" if printed == shown else "DIFFERS"
    why = got[1]
    if "ambiguity" in why:
        return "agree: ambiguous" if wanted.startswith("ambiguous") else AMBIGUITY
    if "unexpected token" in why and "literal" in arms:
        return NO_LITERAL
    for begins, words in SAME:
        if wanted.startswith(begins) and any(word in why for word in words):
            if begins != "no match" or wanted == f"no match {got[2]}":
                return "agree: " + begins
            return LESS_FAR if ":tt" in arms and int(wanted.split(" ")[2]) > got[2] else f"DIFFERS: no match {got[2]}"
    return "rustc: " + why


def main():
    """Compares macros of some seeds, many in one crate."""
    parser = argparse.ArgumentParser()
    parser.add_argument("program")
    parser.add_argument("--first", type=int, default=0)
    parser.add_argument("--macros", type=int, default=BATCH)
    parser.add_argument("--rustc", default="rustc")
    asked = parser.parse_args()
    counts = collections.Counter()
    for first in range(asked.first, asked.first + asked.macros, BATCH):
        made = {}
        for seed in range(first, min(first + BATCH, asked.first + asked.macros)):
            example = random_macros.example(seed)
            if example is not None:
                arms, given, _ = example
                ran = subprocess.run([asked.program, "macros", "show"], input=f"{arms}\x01{given}", capture_output=True, text=True, check=False)
                made[seed] = (told(arms), given, ran.stdout.removesuffix("\n") if ran.returncode == 0 else ran.stderr)
        with tempfile.TemporaryDirectory() as room:
            said = answers(asked.rustc, Path(room), made)
        for seed, (arms, given, wanted) in made.items():
            how = kind(arms, wanted, said[seed])
            counts[how] += 1
            if not how.startswith("agree") and how not in (AMBIGUITY, NO_LITERAL, LESS_FAR):
                print(f"{seed}: {how}: {arms!r} on {given!r}: {wanted!r}, rustc {said[seed][1]!r}")
    for how, count in sorted(counts.items()):
        print(f"{count} {how}")


if __name__ == "__main__":
    main()
