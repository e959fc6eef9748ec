#!/usr/bin/env python3
"""Calls of macros in real source, one by one, beside rustc: compare_calls.py PROGRAM CRATE.. [--most N] [--rustc RUSTC] [--show WORD]

PROGRAM is `app_console`, and a CRATE is a folder with its source, or a file. Each call of a macro that the same file defines before it, or that one
file of the crate alone defines, is given to `arms`, and to rustc with `stringify!` round the template of each rule; the number of the
rule is in front of each template. So what is compared is which rule answers, and the tokens that it writes. Of each definition as
many calls as `--most` says are taken. It prints how many definitions are read, how many calls are of each class, and a line for each
call of a class whose name has WORD in it. No part of the gate: it needs rustc.
"""
import argparse
import collections
import re
import subprocess
import sys
import tempfile
from pathlib import Path

TOKEN = re.compile(
    r"""(?P<space>\s+)|(?P<line>//[^\n]*)|(?P<block>/\*)|(?P<raw>(?:br|cr|r)(?P<hashes>\#*)".*?"(?P=hashes))"""
    r"""|(?P<string>[bc]?"(?:[^"\\]|\\.)*")|(?P<char>b?'(?:[^'\\\n]|\\[^u\n]|\\x\w\w|\\u\{[^}']*\})')|(?P<life>'(?:r\#)?[^\W\d]\w*)"""
    r"""|(?P<word>(?:r\#)?[^\W\d]\w*)|(?P<number>0[xob]\w+|\d[\d_]*(?:\.(?![.\w])|\.\d[\d_]*)?(?:[eE][+-]?_*\d[\d_]*)?\w*)|(?P<sign>.)""",
    re.S | re.X,
)
PAIRS = {"(": ")", "[": "]", "{": "}"}
# How many calls a run of the compiler is given, and how often some that are refused are left out.
RUN = 800
ROUNDS = 40
LONGEST = 60_000
ERROR = re.compile(r"main\.rs:(\d+):\d+: error(?:\[\w+\])?: (.*)")


class Unread(Exception):
    """A text that is no Rust."""


def comment_end(text, start):
    """Where the comment between signs ends that begins there."""
    depth = 0
    for found in re.compile(r"/\*|\*/").finditer(text, start):
        depth += 1 if found[0] == "/*" else -1
        if not depth:
            return found.end()
    raise Unread


def documenting(comment):
    """The tokens that rustc makes of a comment, if it documents something."""
    found = re.match(r"//(/(?!/)|!)(.*)$|/\*(\*(?![*/])|!)(.*)\*/$", comment, re.S)
    if not found:
        return []
    sign, text = (found[1] or found[3]), found[2] if found[1] else found[4]
    hashes = "#" * (1 + max(map(len, re.findall(r'"(#*)', text)), default=0))
    return ["#", *("!" if sign == "!" else ""), "[", "doc", "=", f'r{hashes}"{" ".join(text.split())}"{hashes}', "]"]


def tokens_of(text):
    """The tokens of a text, each with whether it touches the one before it. The suffix of a string is one of its own."""
    at, tokens, touches = 0, [], False
    while at < len(text):
        found = TOKEN.match(text, at)
        kind, word = found.lastgroup, found[0]
        kind = "raw" if kind == "hashes" else kind
        at = comment_end(text, at) if kind == "block" else found.end()
        if kind in ("line", "block"):
            tokens += [(it, False) for it in documenting(text[found.start() : at])]
        elif kind != "space":
            tokens.append((word.replace("\r", "").replace("\n", "\\n"), touches))
        touches = kind not in ("space", "line", "block")
    return tokens


def ends_of(tokens):
    """Where each bracket is closed."""
    ends, opened = {}, []
    for at, (word, _) in enumerate(tokens):
        if word in PAIRS:
            opened.append(at)
        elif word in PAIRS.values():
            if not opened or PAIRS[tokens[opened[-1]][0]] != word:
                raise Unread
            ends[opened.pop()] = at
    if opened:
        raise Unread
    return ends


def line_of(tokens):
    """The tokens on one line."""
    return "".join(word if touches and n else " " + word for n, (word, touches) in enumerate(tokens)).strip()


class File:
    """The tokens of a file, its definitions and its calls."""

    def __init__(self, path, text):
        self.path = path
        self.tokens = tokens_of(text)
        self.ends = ends_of(self.tokens)
        words = [word for word, _ in self.tokens]
        self.definitions, self.calls, at = [], [], 0
        while at < len(words):
            step = 1
            if words[at : at + 2] == ["macro_rules", "!"] and at + 3 in self.ends:
                end = self.ends[at + 3]
                self.definitions.append((at, words[at + 2], self.arms(at + 4, end)))
                step = end - at
            elif words[at + 1 : at + 2] == ["!"] and at + 2 in self.ends and re.match(r"[^\W\d]", words[at]):
                self.calls.append((at, words[at], line_of(self.tokens[at + 3 : self.ends[at + 2]])))
            at += step

    def arms(self, at, end):
        """The arms at the front: each pattern with its brackets, and what its template holds. None if the trees are no arms."""
        arms = []
        while at < end:
            close = self.ends.get(at)
            arrow = [word for word, _ in self.tokens[close + 1 : close + 3]] if close else None
            if arrow != ["=", ">"] or close + 3 not in self.ends:
                return None
            last = self.ends[close + 3]
            arms.append((line_of(self.tokens[at : close + 1]), line_of(self.tokens[close + 4 : last])))
            at = last + 1
            if at < end and self.tokens[at][0] != ";":
                return None
            at += 1
        return tuple(arms)


def files_of(crate):
    """The files of a crate that can be read, and define or call a macro of its own."""
    texts, names = {}, set()
    for path in sorted(Path(crate).rglob("*.rs")) if Path(crate).is_dir() else [Path(crate)]:
        try:
            texts[path] = path.read_text(encoding="utf-8")
        except (OSError, UnicodeDecodeError):
            continue
        names |= set(re.findall(r"macro_rules!\s*(\w+)", texts[path]))
    for path, text in texts.items():
        if "macro_rules!" in text or names & set(re.findall(r"(\w+)\s*!", text)):
            try:
                yield File(path, text)
            except (Unread, AttributeError):
                continue


class Found:
    """The definitions and calls of some crates."""

    def __init__(self, crates, most):
        self.definitions, self.calls, self.odd = {}, [], 0
        for crate in crates:
            self.look_through(list(files_of(crate)), most)

    def look_through(self, files, most):
        """Those of one crate."""
        everywhere = collections.defaultdict(list)
        for file in files:
            for _, name, arms in file.definitions:
                everywhere[name].append(arms)
                if arms:
                    self.definitions.setdefault(arms, f"{file.path}: {name}")
                self.odd += not arms
        taken = collections.Counter()
        for file in files:
            for at, name, given in file.calls:
                before = [arms for place, other, arms in file.definitions if other == name and place < at]
                arms = before[-1] if before else everywhere[name][0] if len(everywhere[name]) == 1 else None
                size = len(given) + (sum(map(len, sum(arms, ()))) if arms else 0)
                if arms and size < LONGEST and taken[arms] < most and (arms, given) not in taken:
                    taken[arms] += 1
                    taken[arms, given] += 1
                    self.calls.append((arms, given, f"{file.path}: {name}"))


def marked(arms, wrap):
    """The arms with the number of each in front of its template, with something round that."""
    return "; ".join(f"{pattern} => {{{wrap.format(f'rule{n} {template}')}}}" for n, (pattern, template) in enumerate(arms))


def printed(text):
    """The tokens of what is shown or printed, each punct by itself."""
    return [word for word, _ in tokens_of(text)]


def told_by_program(program, calls):
    """What the program makes of each call: what comes, or why nothing does."""
    script = ["read 2 a"]
    for arms, given, _ in calls:
        script += [f"read 0 {marked(arms, '{}')}", f"read 1 {given}", "arms 0 1 2", "show 2"]
    ran = subprocess.run([program], input="\n".join(script) + "\n", capture_output=True, text=True, check=True)
    lines = ran.stdout.split("\n")[1:]
    told = []
    for n in range(len(calls)):
        *reads, answer, shown = lines[4 * n : 4 * n + 4]
        if reads != ["ok", "ok"]:
            told.append(("unread", " ".join(reads)))
        else:
            told.append(("tree", printed(shown)[1:-1]) if answer == "ok" else ("refused", answer))
    return told


def crate_of(calls, numbers):
    """The lines of a crate whose main prints what these calls become: two for each."""
    lines = []
    for number in numbers:
        arms, given, _ = calls[number]
        lines.append(f"mod c{number} {{ macro_rules! m {{ {marked(arms, 'stringify!{{{}}}')} }}")
        lines.append(f"pub const X: &str = m! {{ {given} }}; }}")
    lines.append("fn main() {")
    lines += [f'println!("{number} {{}}", c{number}::X.replace("\\n", " "));' for number in numbers]
    return [*lines, "}"]


def told_by_rustc(rustc, room, calls):
    """The same by rustc: what is printed, or its first error."""
    left, told, source = list(range(len(calls))), {}, room / "main.rs"
    for _ in range(ROUNDS):
        lines = crate_of(calls, left)
        source.write_text("\n".join(lines), encoding="utf-8")
        ran = subprocess.run(
            [rustc, "--edition=2024", "-Awarnings", "--error-format=short", "-Copt-level=0", "-Cdebuginfo=0", "-o", room / "main", source],
            capture_output=True, text=True, check=False, env={"RUSTC_BOOTSTRAP": "1", "PATH": "/usr/bin:/bin:/root/.cargo/bin"},
        )
        if ran.returncode == 0:
            for line in subprocess.run([room / "main"], capture_output=True, text=True, check=True).stdout.splitlines():
                number, _, text = line.partition(" ")
                told[int(number)] = ("tree", printed(text))
            return [told[n] for n in range(len(calls))]
        before = len(left)
        for found in filter(None, map(ERROR.match, (it.removeprefix(f"{room}/") for it in ran.stderr.splitlines()))):
            place = int(found[1]) - 1
            if place < 2 * before:
                number = int(re.match(r"mod c(\d+) ", lines[place - place % 2])[1])
                told.setdefault(number, ("refused" if place % 2 else "definition", found[2]))
        left = [number for number in left if number not in told]
        if len(left) == before:
            sys.exit(f"rustc refuses the crate, and names no call: {ran.stderr[-500:]}")
    sys.exit("rustc finds something wrong each time")


def from_difference(ours, theirs):
    """Both from some tokens before the first that differs."""
    at = next((n for n, (a, b) in enumerate(zip(ours, theirs)) if a != b), min(len(ours), len(theirs)))
    return " ".join(ours[max(0, at - 5) : at + 12]), " ".join(theirs[max(0, at - 5) : at + 12])


def plain_message(message):
    """A message without what it names."""
    return re.sub(r"`[^`]*`|(?<=found ).*", "..", message)[:70]


def class_of(ours, theirs):
    """How the two compare."""
    if theirs[0] == "definition":
        return f"rustc refuses the definition: {plain_message(theirs[1])}"
    if ours[0] == "unread":
        return "DIFFER: not read by us, taken by rustc" if theirs[0] == "tree" else "agree: not read"
    if ours[0] == "tree" and theirs[0] == "tree":
        if ours[1] == theirs[1]:
            return "agree: the same tokens"
        if "".join(ours[1]) == "".join(theirs[1]):
            return "agree: the same tokens, of which rustc prints two with no space between"
        return "DIFFER: another rule" if ours[1][0] != theirs[1][0] else "DIFFER: other tokens"
    if theirs[0] == "tree":
        return f"DIFFER: refused by us, taken by rustc: {ours[1]}"
    if ours[0] == "tree":
        return f"DIFFER: taken by us, refused by rustc: {plain_message(theirs[1])}"
    return f"agree: no tree: {ours[1]}: {plain_message(theirs[1])}"


def main():
    """Compares all, and prints how many there are of each class."""
    parser = argparse.ArgumentParser(description=__doc__.splitlines()[0])
    parser.add_argument("program")
    parser.add_argument("crates", nargs="+")
    parser.add_argument("--most", type=int, default=30)
    parser.add_argument("--rustc", default="rustc")
    parser.add_argument("--show")
    given = parser.parse_args()
    found, counts = Found(given.crates, given.most), collections.Counter()
    definitions = [(arms, "", where) for arms, where in found.definitions.items()]
    for (arms, _, where), told in zip(definitions, told_by_program(given.program, definitions)):
        wrong = told[0] == "unread" or told[1][:4] == "rule"
        counts[f"definitions that are {'not ' if wrong else ''}read"] += 1
        if wrong:
            print(f"{where}: {told[1]}", flush=True)
    counts["definitions whose rules are not found"] = found.odd
    with tempfile.TemporaryDirectory() as room:
        for begin in range(0, len(found.calls), RUN):
            calls = found.calls[begin : begin + RUN]
            both = zip(calls, told_by_program(given.program, calls), told_by_rustc(given.rustc, Path(room), calls))
            for (arms, text, where), ours, theirs in both:
                kind = class_of(ours, theirs)
                counts[kind] += 1
                if given.show and given.show in kind:
                    left, right = from_difference(ours[1], theirs[1]) if ours[0] == theirs[0] else (ours[1][:40], theirs[1][:40])
                    print(f"{kind}\n  {where}! {text[:200]}\n  {left}\n  {right}", flush=True)
    for kind, number in sorted(counts.items()):
        print(f"{number:7} {kind}")


if __name__ == "__main__":
    main()
