#!/usr/bin/env python3
"""Prints a made token tree as `item` lines (docs/CONSOLE.md): items.py SIZE PROFILE [SEED]

The lines are the same on every machine for a SIZE (tokens, at least 9), a PROFILE and a SEED (1 if
it is left out).

    mix          four span parts, which change now and then
    many-parts   two hundred span parts, which change at about each fourth token
    deep         as mix, but going down and up between depth 2 and 500, with leaves on the way
    syms:D       a flat brace over idents of D different names; SEED is not looked at

But for syms:D, the tree is a brace (the top) over eight big braces that share the other tokens evenly.
Inside these, of a hundred places about 15 hold a subtree, 35 a punct, 10 a literal and 40 an ident.
A subtree has 6.7 children on average, and its inside follows the same rule down to depth 12.
Offsets rise through one file, with gaps as spaces and line breaks make them.

Numbers are drawn by splitmix64 from the seed, and brought below a limit by the high half of a product.
"""
import sys
from bisect import bisect_right
from itertools import accumulate
from typing import NamedTuple

WORD = 2**64 - 1
BIG_BRACES = 8
MOST_DEPTH = 12
TURNING_DEPTH = 500
# The r-th ident is drawn with weight 1 / (r + 2).
IDENTS = 4096
IDENT_WEIGHTS = list(accumulate(2**40 // (rank + 2) for rank in range(IDENTS)))
STRINGS = 20_000
# A number of children that is never reached.
ENDLESS = WORD

KEYWORDS = "self let fn pub if mut impl Self return Some None Ok match use crate for in T u32 usize x i it _".split()
STEMS = ["name", "value", "item_of", "to"]
# A character that occurs more often here is drawn more often.
PUNCTS = ",,,,,,,,......;;;;;;::==&&<>#!?+-*/|'@$%^"
PAIRS = ":: :: :: -> => && == .. <= +=".split()
NUMBER_SUFFIXES = ["u8", "u32", "usize"]


class Profile(NamedTuple):
    """How many span parts there are, after how many tokens one changes (about), and whether the tree goes deep."""
    parts: int
    change: int
    deep: bool


PROFILES = {
    "mix": Profile(parts=4, change=64, deep=False),
    "many-parts": Profile(parts=200, change=4, deep=False),
    "deep": Profile(parts=4, change=64, deep=True),
}


class Random:
    """splitmix64."""

    def __init__(self, seed):
        self.state = seed

    def draw(self):
        self.state = (self.state + 0x9E3779B97F4A7C15) & WORD
        z = self.state
        z = ((z ^ z >> 30) * 0xBF58476D1CE4E5B9) & WORD
        z = ((z ^ z >> 27) * 0x94D049BB133111EB) & WORD
        return z ^ z >> 31

    def below(self, limit):
        return self.draw() * limit >> 64

    def one_in(self, count):
        return self.below(count) == 0

    def of(self, choices):
        return choices[self.below(len(choices))]


class Subtree:
    """An open subtree: where its line belongs, and what it opened with."""

    def __init__(self, line, kind, part, start, end, children):
        self.line, self.kind, self.part = line, kind, part
        self.start, self.end = start, end
        self.children = children


def span(part, start, end):
    """The text of a span. Two parts share an item of the file, in two contexts."""
    return f"0:{part // 2}@{start}..{end}#{part % 2}"


class Maker:
    """Writes the lines from the first token to the last."""

    def __init__(self, profile, seed):
        self.profile = profile
        self.random = Random(seed)
        self.lines = []
        self.open_subtrees = []
        self.offset = 0
        self.part = 0
        self.second_of_pair = None
        self.goes_down = True

    def tree(self, size):
        """The lines of a whole tree."""
        self.open("brace", ENDLESS)
        share, rest = divmod(size - 1 - BIG_BRACES, BIG_BRACES)
        for number in range(BIG_BRACES):
            self.open("brace", ENDLESS)
            until = len(self.lines) + share + (1 if number < rest else 0)
            while len(self.lines) < until:
                self.token()
            while len(self.open_subtrees) > 1:
                self.close()
        self.close()
        return self.lines

    def token(self):
        """One more token, and the ends of subtrees before it."""
        if self.second_of_pair is not None:
            char, self.second_of_pair = self.second_of_pair, None
            self.punct("alone", char)
        elif self.profile.deep:
            self.deep_token()
        else:
            self.shallow_token()

    def shallow_token(self):
        while self.open_subtrees[-1].children == 0:
            self.close()
        self.open_subtrees[-1].children -= 1
        if len(self.open_subtrees) < MOST_DEPTH and self.random.below(100) < 20:
            self.open_any(self.geometric())
        else:
            self.leaf()

    def deep_token(self):
        """Puts about two leaves between one opening, or one end, and the next."""
        depth = len(self.open_subtrees)
        if depth >= TURNING_DEPTH:
            self.goes_down = False
        elif depth <= 2:
            self.goes_down = True
        turns = self.random.one_in(3)
        if turns and self.goes_down:
            self.open_any(ENDLESS)
            return
        if turns:
            self.close()
        self.leaf()

    def geometric(self):
        """A number from 0 to 60, 6.7 on average."""
        count = 0
        while count < 60 and self.random.below(100) < 87:
            count += 1
        return count

    def place(self, length):
        """Part, start and end of the next text of that length. A space may come before it, and a new part begin."""
        if self.random.one_in(3):
            self.offset += 1
        start = self.offset
        self.offset += length
        if self.random.one_in(self.profile.change):
            # Low parts are used more.
            self.part = min(self.random.below(self.profile.parts), self.random.below(self.profile.parts))
        return self.part, start, self.offset

    def line_break(self):
        self.offset += 1 + 4 * min(len(self.open_subtrees), MOST_DEPTH)

    def open_any(self, children):
        drawn = self.random.below(20)
        if drawn < 10:
            kind = "paren"
        elif drawn < 15:
            kind = "brace"
        elif drawn < 18:
            kind = "bracket"
        else:
            kind = "invisible"
        self.open(kind, children)

    def open(self, kind, children):
        part, start, end = self.place(0 if kind == "invisible" else 1)
        self.open_subtrees.append(Subtree(len(self.lines), kind, part, start, end, children))
        self.lines.append("")

    def close(self):
        """Ends the innermost subtree. Its close span is now and then of another part than its open span."""
        subtree = self.open_subtrees.pop()
        start = self.offset
        self.offset += 1
        part = self.part if self.random.one_in(32) else subtree.part
        if subtree.kind == "invisible":
            # Both spans are the range of the whole.
            opening = closing = span(subtree.part, subtree.start, start)
        else:
            opening = span(subtree.part, subtree.start, subtree.end)
            closing = span(part, start, self.offset)
            if self.random.one_in(4):
                self.line_break()
        length = len(self.lines) - subtree.line - 1
        self.lines[subtree.line] = f"item sub {subtree.kind} {opening} {closing} {length}"

    def leaf(self):
        drawn = self.random.below(79)
        if drawn < 29:
            self.any_punct()
        elif drawn < 39:
            self.literal()
        else:
            self.ident()

    def any_punct(self):
        if self.random.one_in(5):
            first, second = self.random.of(PAIRS)
            self.punct("joint", first)
            self.second_of_pair = second
        elif self.random.one_in(4096):
            self.punct("alone", "→")
        else:
            char = self.random.of(PUNCTS)
            self.punct("hidden" if self.random.one_in(3) else "alone", char)

    def punct(self, spacing, char):
        place = self.place(len(char.encode()))
        self.lines.append(f"item punct {spacing} {span(*place)} {char}")
        if char == ";":
            self.line_break()

    def ident(self):
        rank = bisect_right(IDENT_WEIGHTS, self.random.below(IDENT_WEIGHTS[-1]))
        text = KEYWORDS[rank] if rank < len(KEYWORDS) else f"{STEMS[rank % 4]}_{rank}"
        self.lines.append(f"item ident plain {span(*self.place(len(text)))} {text}")

    def literal(self):
        number = self.random.below(1000)
        string = self.random.below(STRINGS)
        drawn = self.random.below(20)
        # The marks are the bytes of quotes and hashes in the source.
        suffix, marks = "", 0
        if drawn < 8:
            kind, text = "int", str(number)
        elif drawn < 10:
            kind, text, suffix = "int", str(number), self.random.of(NUMBER_SUFFIXES)
        elif drawn < 16:
            kind, text, marks = "str", f"text number {string}", 2
        elif drawn == 16:
            kind, text, suffix = "float", f"{number}.5", "f64"
        elif drawn == 17:
            kind, text, marks = "char", chr(ord("a") + number % 26), 2
        elif drawn == 18:
            kind, text, marks = "rstr:1", f'a "raw" text {string}', 5
        else:
            kind, text, marks = "bstr", f"bytes {number}", 3
        place = self.place(len(text) + len(suffix) + marks)
        self.lines.append(f"item lit {kind} {len(suffix)} {span(*place)} {text}{suffix}")


def idents(size, different):
    """A brace over idents; the i-th has name i * 7919 modulo the number of different ones."""
    yield f"item sub brace {span(0, 0, 1)} {span(0, 4 * size, 4 * size + 1)} {size - 1}"
    for i in range(1, size):
        yield f"item ident plain {span(0, 4 * i, 4 * i + 3)} name_{i * 7919 % different}"


def lines(size, profile, seed=1):
    """The lines of a tree, without line feeds."""
    if profile.startswith("syms:"):
        different = int(profile.removeprefix("syms:"))
        if different < 1:
            raise ValueError(different)
        return idents(size, different)
    return Maker(PROFILES[profile], seed).tree(size)


def main():
    words = sys.argv[1:]
    try:
        size, profile, seed = int(words[0]), words[1], int(words[2]) if len(words) > 2 else 1
        if size <= BIG_BRACES or len(words) > 3:
            raise ValueError(size)
        made = lines(size, profile, seed)
    except (IndexError, KeyError, ValueError):
        sys.exit("usage: items.py SIZE PROFILE [SEED], with SIZE from 9 and PROFILE mix, many-parts, deep or syms:D")
    sys.stdout.reconfigure(encoding="utf-8", newline="\n")
    sys.stdout.writelines(line + "\n" for line in made)


if __name__ == "__main__":
    main()
