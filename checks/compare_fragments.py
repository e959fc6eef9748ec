#!/usr/bin/env python3
"""How far fragments of Rust's grammar reach, beside rustc: compare_fragments.py PROGRAM [--texts N] [--first SEED] [--table N]

Short texts are made by chance from the table of docs/GRAMMAR.md, and half of them changed by a unit that is removed, doubled, put in
place of another or swapped with the next; behind most comes `=>`, which no fragment takes. For each, rustc is given a macro
`($f:FRAGMENT) => {}`: if the fragment ends before the end of the text, the compiler reports an error at the token behind it. Any other
error is one of its own for the text. PROGRAM, `app_console`, answers how many trees it takes; for the first N texts plain_grammar.py
has to give the same answer. If the numbers differ and rustc reports no error of its own, words are taken out of the text as long as
that stays so. It prints how many texts are of each class, with the shortest of each, and the texts that such cuts lead to, with how
many lead there. No part of the gate: it needs rustc (--rustc).
"""
import argparse
import collections
import random
import re
import subprocess
import sys
import tempfile
from pathlib import Path

import plain_grammar
from made_fragments import END, Maker
from plain_text import tree_of_text

BATCH = 20_000
# How many texts a run of the compiler is given.
RUN = 1_500
FRONT = "m! { "
ERROR = re.compile(r"main\.rs:(\d+):(\d+): error(?:\[(\w+)\])?: (.*)")
# Classes of texts that were cut short, each by what such a text looks like behind the name of its fragment.
KNOWN = (
    ("a `match` behind a point where a statement begins", r"stmt .*\. match \{"),
    ("`::{` and `::*` where a statement begins", r"stmt .*:: (\{|\*)"),
    ("two `where` without a `=` between them", r".*\bwhere where\b"),
    ("closures with `gen`, and blocks with `use`", r".*\bgen (use \{|\|)"),
    ("`safe fn` as a type", r".*\bsafe (extern )?fn \("),
    ("an operator behind a range that has no end", r"(?!stmt .*\}).* \.\. ([-+*/%^|&<>=!]+|as) "),
    ("a block behind an operator where a statement begins", r"stmt (.* )?(&&?|[-*!]|const|mut|\.\.=?) (# \[\w*\] )*.*\}( [^.?].*)?$"),
)

TREES = {}


def trees_of(word):
    """The trees of a word between blanks."""
    if word not in TREES:
        TREES[word] = tree_of_text(word).children
    return TREES[word]


def place_at(words, column):
    """How many trees are before a column of the text."""
    place = start = 0
    for word in words:
        if column < start + len(word) and len(trees_of(word)) == len(word):
            return place + max(0, column - start)
        if column <= start:
            return place
        place += len(trees_of(word))
        start += len(word) + 1
    return place


def errors_of(rustc, room, fragment, texts):
    """The errors of a run over the texts: the number of the text, the column in it, and the message."""
    source = room / "main.rs"
    lines = [f"macro_rules! m {{ ($f:{fragment}) => {{}} }}", *(f"{FRONT}{' '.join(it)} }}" for it in texts), "fn main() {}"]
    source.write_text("\n".join(lines), encoding="utf-8")
    ran = subprocess.run(
        [rustc, "--edition=2024", "--error-format=short", "-o", room / "main", source], capture_output=True, text=True, check=False
    )
    for line in ran.stderr.splitlines():
        found = ERROR.match(line.removeprefix(f"{room}/"))
        if found and found[3] != "E0658":
            yield int(found[1]) - 2, int(found[2]) - 1 - len(FRONT), found[4]


def told_by(rustc, room, fragment, texts):
    """What rustc answers for each text: how many trees it takes, or None, and its first error of its own, with its place."""
    told = [[None, None] for _ in texts]
    begin = last = 0
    while begin < len(texts):
        end = min(begin + RUN, len(texts))
        for number, column, message in errors_of(rustc, room, fragment, texts[begin:end]):
            last = max(last, begin + number)
            words, of_it = texts[begin + number], told[begin + number]
            if message.startswith("no rules expected"):
                of_it[0] = place_at(words, column)
            elif not of_it[1]:
                of_it[1] = (plain_message(message), place_at(words, column))
        # Some errors end the compiler's run.
        ended = any(it[-1] == END for it in texts[last + 1 : end])
        begin = last = last + 1 if ended else end
    for it, words in zip(told, texts):
        if it == [None, None]:
            it[0] = sum(len(trees_of(word)) for word in words)
    return told


def plain_message(message):
    """A message without what it names."""
    if message.startswith("expected one of"):
        return "expected one of .."
    return re.sub(r"`[^`]*`|<\w+>|(?<=found ).*", "..", message)[:60]


def asked(program, fragment, texts):
    """What the program answers for each text: how many trees it takes."""
    script = [f"read 0 ($f:{fragment} $($t:tt)*) => {{$($t)*}}", "read 2 a"]
    for words in texts:
        script += [f"read 1 {' '.join(words)}", "arms 0 1 2", "flat 2"]
    ran = subprocess.run([program], input="\n".join(script) + "\n", capture_output=True, text=True, check=True)
    lines, taken = iter(ran.stdout.splitlines()[2:]), []
    for words in texts:
        answers = [next(lines), next(lines)]
        left = list(iter(lambda: next(lines), "end"))
        if answers[1] == "ok":
            taken.append(sum(len(trees_of(it)) for it in words) - siblings_in(left))
        else:
            taken.append(0 if answers == ["ok", "no match"] else answers)
    return taken


def siblings_in(lines):
    """How many trees are right below the top, by the lines of a flat list."""
    count, at = 0, 1
    while at < len(lines):
        count += 1
        at += 1 + (int(lines[at].split(" ")[-1]) if lines[at].startswith("sub ") else 0)
    return count


def class_of(ours, told):
    """How what the table takes compares with what rustc answers."""
    theirs, error = told
    if theirs is not None and error:
        return f"taken with an error, {'the same' if ours == theirs else 'DIFFER'}: {error[0]}"
    if theirs is not None:
        return "agree" if ours == theirs else "DIFFER: " + ("ours none" if not ours else "ours less" if ours < theirs else "ours more")
    if error is None:
        return "DIFFER: rustc answers nothing"
    if not ours:
        return "none, an error there"
    return f"{'up to' if ours <= error[1] else 'past'} an error there: {error[0]}"


def known_class(fragment, words):
    """The class of a text that was cut short."""
    line = f"{fragment} {' '.join(it for it in words if it != END)}"
    return next((name for name, look in KNOWN if re.match(look, line)), None)


class Judge:
    """Compares texts, and counts how many are of each class."""

    def __init__(self, program, rustc, room):
        self.program, self.rustc, self.room = program, rustc, room
        self.numbers = collections.Counter()
        self.shortest = {}
        self.cut = collections.defaultdict(collections.Counter)

    def compare(self, fragment, texts):
        """What both answer for the texts."""
        return asked(self.program, fragment, texts), told_by(self.rustc, self.room, fragment, texts)

    def judge(self, fragment, texts):
        """Counts these texts, and cuts short those that differ. Returns what the program answers for each."""
        ours, theirs = self.compare(fragment, texts)
        different = []
        for words, taken, told in zip(texts, ours, theirs):
            key = (class_of(taken, told), fragment)
            self.numbers[key] += 1
            if key not in self.shortest or len(words) < len(self.shortest[key][0]):
                self.shortest[key] = (words, taken, told)
            if key[0].startswith("DIFFER"):
                different.append(words)
        self.cut_short(fragment, different)
        return ours

    def cut_short(self, fragment, texts):
        """Cuts the texts as long as they differ, all of them word by word."""
        while texts:
            cuts = [(n, words[:at] + words[at + 1 :]) for n, words in enumerate(texts) for at in range(len(words)) if len(words) > 1]
            ours, theirs = self.compare(fragment, [words for _, words in cuts]) if cuts else ([], [])
            shorter = {}
            for (n, words), taken, told in zip(cuts, ours, theirs):
                if class_of(taken, told).startswith("DIFFER"):
                    shorter.setdefault(n, words)
            for n, words in enumerate(texts):
                if n not in shorter:
                    self.cut[fragment][tuple(words)] += 1
            texts = list(shorter.values())

    def show(self):
        """Prints all."""
        for (found, fragment), number in sorted(self.numbers.items()):
            words, ours, (theirs, error) = self.shortest[found, fragment]
            print(f"{number:8} {fragment:9} {found:70} {' '.join(words)}   ours {ours}, rustc {theirs} {error or ''}")
        counts, examples = collections.Counter(), {}
        for fragment, texts in self.cut.items():
            for words, number in texts.items():
                name = known_class(fragment, words) or f"no known class: {' '.join(words)}"
                counts[name] += number
                examples.setdefault(name, set()).add((len(words), f"{fragment} {' '.join(words)}"))
        for name, number in counts.most_common():
            print(f"{number:8} cut short: {name}: {min(examples[name])[1]}")


def main():
    """Compares texts of some seeds, many in one file, each fragment in turn."""
    parser = argparse.ArgumentParser(description=__doc__.splitlines()[0])
    parser.add_argument("program")
    parser.add_argument("--texts", type=int, default=BATCH)
    parser.add_argument("--first", type=int, default=0)
    parser.add_argument("--table", type=int, default=0)
    parser.add_argument("--rustc", default="rustc")
    given = parser.parse_args()
    left, table, seed = given.texts, given.table, given.first
    with tempfile.TemporaryDirectory() as room:
        judge = Judge(given.program, given.rustc, Path(room))
        while left > 0:
            fragment = list(plain_grammar.FRAGMENTS)[seed % len(plain_grammar.FRAGMENTS)]
            maker = Maker(random.Random(seed))
            texts = [maker.text(fragment) for _ in range(min(left, BATCH))]
            for words, taken in zip(texts[:table], judge.judge(fragment, texts)):
                plain = plain_grammar.reach(fragment, [it for word in words for it in trees_of(word)])
                if taken != plain:
                    print(f"the program takes {taken} by {fragment}, and the table {plain}: {' '.join(words)}", flush=True)
            left, table, seed = left - len(texts), max(0, table - len(texts)), seed + 1
        judge.show()


if __name__ == "__main__":
    main()
