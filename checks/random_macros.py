#!/usr/bin/env python3
"""Macros and inputs made by chance, expanded by brute force too: random_macros.py PROGRAM [--first SEED] [--macros N]

PROGRAM is `bench_texts`, whose `show` has to answer as plain_macros.py does, which lists all readings and shares no code with it.
A line is printed for each 250 macros, `ok NAME`, and one for each that was answered otherwise, `FAILED NAME: WHY`; the status is 1
if there was one. The same seeds make the same macros.
"""
import argparse
import random
import subprocess
import sys

import plain_macros

MACROS = 2000
# Macros to one line that is printed.
BATCH = 250
# Brute force takes inputs of so many units at most.
MOST_UNITS = 12
# What begins an answer that is no tree.
STOPS = ("no", "ambiguous", "still", "nothing", "lengths")
OPERATORS = [",", ";", "=>", "+", "::", "-", "=="]
UNITS = (
    [("ident", name) for name in ("a", "b", "pub", "in", "self", "true", "_")]
    + [("lit", text) for text in ("1", '"s"', "2.5")]
    + [("op", chars) for chars in OPERATORS]
    + [("life", "x")]
)
FRAGMENTS = ["tt", "tt", "ident", "literal", "lifetime", "block", "vis"]


class Maker:
    """Makes macros and inputs by chance."""

    def __init__(self, by):
        self.by = by
        self.names = 0

    def unit(self, depth):
        if depth and self.by.random() < 0.2:
            return ("sub", self.by.choice("([{"), [self.unit(depth - 1) for _ in range(self.by.randrange(3))])
        return self.by.choice(UNITS)

    # A separator: no repetition operator, and no `$`.
    def separator(self):
        return self.by.choice([("op", ","), ("op", ";"), ("op", "=>"), ("ident", "b"), ("lit", "1")])

    def pattern(self, depth, length):
        parts = [self.part(depth) for _ in range(length)]
        return parts

    def part(self, depth):
        kind = self.by.random()
        if kind < 0.35:
            self.names += 1
            return ("var", f"v{self.names}", self.by.choice(FRAGMENTS))
        if kind < 0.55 or not depth:
            return ("unit", self.by.choice([u for u in UNITS if u != ("op", "-")]))
        if kind < 0.65:
            return ("sub", self.by.choice("([{"), self.pattern(depth - 1, self.by.randrange(3)))
        body = self.pattern(depth - 1, self.by.randrange(1, 3))
        if may_be_empty(body):
            body.append(("unit", ("ident", "a")))
        operator = self.by.choice("**+?")
        separator = self.separator() if operator != "?" and self.by.random() < 0.5 else None
        return ("rep", body, separator, operator)

    # An input that the pattern may take: each part is followed, with a mistake now and then.
    def input_of(self, parts):
        units = []
        for part in parts:
            if self.by.random() < 0.04:
                units.append(self.unit(1))
            if part[0] == "var":
                units += self.fragment(part[2])
            elif part[0] == "unit":
                units.append(part[1])
            elif part[0] == "sub":
                bracket = self.by.choice("([{") if self.by.random() < 0.05 else part[1]
                units.append(("sub", bracket, self.input_of(part[2])))
            else:
                count = self.by.randrange(3) if part[3] in "*?" else self.by.randrange(1, 3)
                count = min(count, 1) if part[3] == "?" else count
                for number in range(count):
                    if number and part[2] is not None:
                        units.append(part[2])
                    units += self.input_of(part[1])
        return units

    def fragment(self, name):
        if name == "ident":
            return [("ident", self.by.choice("aabb_"))]
        if name == "literal":
            minus = self.by.choice([[], [("op", "-")]])
            return [*minus, self.by.choice([("lit", "1"), ("lit", '"s"'), ("ident", "true")])]
        if name == "lifetime":
            return [("life", "x")]
        if name == "block":
            return [("sub", "{", [self.unit(0)])]
        if name == "vis":
            held = self.by.choice([[], [("ident", "self")], [("ident", "self"), ("ident", "b")], [("ident", "in"), ("ident", "a")]])
            return self.by.choice([[], [("ident", "pub")], [("ident", "pub"), ("sub", "(", held)]])
        return [self.unit(1)]

    # A template of these variables, each with how many repetitions it is in, if that many are around it, of fewer parts than
    # `most` at a level. Now and then a use still repeats, or a repetition may have nothing that repeats.
    def template(self, nests, depth, most=5):
        parts = []
        for _ in range(self.by.randrange(most) if most > 0 else 0):
            kind = self.by.random()
            flat = [name for name, nest in nests.items() if nest <= depth]
            deep = [name for name, nest in nests.items() if nest > depth]
            if kind < 0.02 and deep:
                parts.append(("use", self.by.choice(deep)))
            elif kind < 0.04:
                parts.append(("rep", self.template(nests, depth + 1, most - 2), None, "*"))
            elif kind < 0.37 and flat:
                parts.append(("use", self.by.choice(flat)))
            elif kind < 0.71 and deep and depth < 3:
                parts.append(self.repetition(nests, depth, self.by.choice(deep), most - 2))
            elif kind < 0.81:
                parts.append(("sub", self.by.choice("([{"), self.template(nests, depth, most - 2)))
            else:
                parts.append(("unit", self.by.choice([("ident", "c"), ("op", ";"), ("op", "=>"), ("lit", "3")])))
        return parts

    def repetition(self, nests, depth, name, most):
        inside = self.template(nests, depth + 1, max(most, 0))
        inner = ("use", name) if nests[name] <= depth + 1 else self.repetition(nests, depth + 1, name, most - 2)
        inside.insert(self.by.randrange(len(inside) + 1), inner)
        operator = self.by.choice("**+")
        separator = self.by.choice([("op", ","), ("op", "=>"), ("ident", "b")]) if self.by.random() < 0.4 else None
        return ("rep", inside, separator, operator)


def may_be_empty(parts):
    for part in parts:
        if part[0] == "var" and part[2] == "vis":
            continue
        if part[0] == "rep" and part[3] in "*?":
            continue
        return False
    return True


def nests_of(parts, depth=0):
    nests = {}
    for part in parts:
        if part[0] == "var":
            nests[part[1]] = depth
        elif part[0] == "sub":
            nests.update(nests_of(part[2], depth))
        elif part[0] == "rep":
            nests.update(nests_of(part[1], depth + 1))
    return nests


def parts_text(parts):
    words = []
    for part in parts:
        if part[0] == "var":
            words.append(f"${part[1]}:{part[2]}")
        elif part[0] == "use":
            words.append(f"${part[1]}")
        elif part[0] == "unit":
            words.append(plain_macros.unit_text(part[1]))
        elif part[0] == "sub":
            words.append(f"{part[1]} {parts_text(part[2])} {plain_macros.BRACKETS[part[1]]}")
        else:
            separator = plain_macros.unit_text(part[2]) if part[2] is not None else ""
            words.append(f"$({parts_text(part[1])}) {separator} {part[3]}")
    return " ".join(words)


# The parts of a template, each use and each repetition with its flat place; and the place behind them.
def placed(parts, at):
    made = []
    for part in parts:
        if part[0] == "use":
            made.append((*part, at))
            at += 2
        elif part[0] == "unit":
            made.append(part)
            at += plain_macros.size(part[1])
        elif part[0] == "sub":
            held, at = placed(part[2], at + 1)
            made.append(("sub", part[1], held))
        else:
            place = at
            held, at = placed(part[1], at + 2)
            made.append(("rep", held, part[2], part[3], place))
            at += (plain_macros.size(part[2]) if part[2] is not None else 0) + 1
    return made, at


# The tokens of units, as the program shows them.
def shown(units):
    words = []
    for unit in units:
        if unit[0] == "sub":
            words.append(f"{unit[1]}{sum(plain_macros.size(held) for held in unit[2])}")
            words += shown(unit[2])
        elif unit[0] == "op":
            words += list(unit[1])
        elif unit[0] == "life":
            words += ["'", unit[1]]
        else:
            words.append(unit[1])
    return words


def answer(arms, units):
    made = plain_macros.expanded([(pattern, placed(template, 0)[0]) for pattern, template in arms], units)
    if isinstance(made, str):
        return made
    return "".join(word + " " for word in shown(made))


# The arms of a macro, and an input that one of them may take.
def macro(maker):
    arms = []
    for _ in range(maker.by.choice((1, 1, 2, 3))):
        pattern = maker.pattern(2, maker.by.randrange(1, 5))
        arms.append((pattern, maker.template(nests_of(pattern), 0)))
    return arms, maker.input_of(maker.by.choice(arms)[0])


def macro_text(arms):
    return " ; ".join(f"( {parts_text(pattern)} ) => {{ {parts_text(template)} }}" for pattern, template in arms)


def units_text(units):
    return " ".join(plain_macros.unit_text(unit) for unit in units)


# A macro and an input, as texts, and what the input becomes; nothing if the input has too many units for brute force.
def example(seed):
    arms, units = macro(Maker(random.Random(seed)))
    if len(units) > MOST_UNITS:
        return None
    return macro_text(arms), units_text(units), answer(arms, units)


# What the program answers otherwise than it should, if anything.
def difference(program, seed, kinds):
    made = example(seed)
    if made is None:
        return None
    arms, given, wanted = made
    kinds.add(wanted.split(" ")[0] if wanted.split(" ")[0] in STOPS else "tree")
    ran = subprocess.run([program, "macros", "show"], input=f"{arms}\x01{given}", capture_output=True, text=True, check=False)
    got = ran.stdout.removesuffix("\n") if ran.returncode == 0 else ran.stderr
    return None if got == wanted else f"{arms!r} makes of {given!r} {got!r}, and not {wanted!r}"


def main():
    """Tries the macros of some seeds one after the other."""
    parser = argparse.ArgumentParser()
    parser.add_argument("program")
    parser.add_argument("--first", type=int, default=0)
    parser.add_argument("--macros", type=int, default=MACROS)
    asked = parser.parse_args()
    failed = 0
    kinds = set()
    for first in range(asked.first, asked.first + asked.macros, BATCH):
        seeds = range(first, min(first + BATCH, asked.first + asked.macros))
        wrong = [(seed, why) for seed in seeds if (why := difference(asked.program, seed, kinds))]
        for seed, why in wrong:
            print(f"FAILED macro {seed}: {why}")
        if not wrong:
            print(f"ok macros {seeds[0]} to {seeds[-1]}")
        failed += len(wrong)
    for kind in {"tree", *STOPS} - kinds:
        print(f"FAILED no macro of these seeds answers: {kind}")
        failed += 1
    sys.exit(failed > 0)


if __name__ == "__main__":
    main()
