#!/usr/bin/env python3
"""Which calls are statements or items, by the trees beside them and by the grammar: compare_positions.py PROGRAM PATH.. [--show N]

PROGRAM is `cuvolemin`, which tells from the trees beside a call whether it is a statement or an item. The derivation that `tree --syntax`
writes says the same by the table of docs/GRAMMAR.md. So this program defines macros that write two statements for the names of all calls in a
file, and has the file expanded: `cuvolemin` reports an error for each call that it does not count as a statement or an item. A file is left out if it defines
macros, or is no file by the grammar. It prints the first N calls at which both differ, and how many agree; the status is 1 if one differs. It is no part of
./test: it needs real source.
"""
import argparse
import collections
import pathlib
import re
import subprocess
import sys
import tempfile
from concurrent.futures import ThreadPoolExecutor

SECONDS = 60
RUNS = 3
# How many diagnostics the program shows of a file.
MOST = 100
TOKEN = re.compile(r"( *)(IDENT|PUNCH|LITERAL|SUBTREE) +(?:(.*) )?(\d+):(\d+)\.\.(\d+):(\d+)$", re.S)
NAME = re.compile(r"( *)([a-z][a-z_0-9]*)$")
REFUSED = re.compile(r"error: [^\n]*\n +--> [^\n]*:(\d+):(\d+)\n")
DEFINITION = "macro_rules! {} {{ ($($t:tt)*) => {{ let cuvolemin_a = 1; let cuvolemin_b = 2; }} }}"
# Names that mean something else before a `!`.
OTHERS = {"macro_rules"}


class Node:
    """A name of the derivation, or a token: its text, its bytes, what is below it, and what it is below."""

    def __init__(self, kind, text="", start=None, end=None):
        self.kind, self.text, self.start, self.end, self.below, self.above = kind, text, start, end, [], None

    def add(self, node):
        """Puts a node below it."""
        node.above = self
        self.below.append(node)

    def tokens(self):
        """The tokens that it took, without those in their brackets."""
        for it in self.below:
            yield from [it] if it.start is not None else it.tokens()


class Text:
    """A text, and the characters at which its lines begin."""

    def __init__(self, text):
        self.text, self.lines = text, [0]
        for found in re.finditer("\n", text):
            self.lines.append(found.end())

    def at(self, line, column):
        """The character at a line and a column, both from 1."""
        return self.lines[int(line) - 1] + int(column) - 1


def whole_lines(lines):
    """The lines, each with those that a literal in it has."""
    line = ""
    for more in lines:
        line = f"{line}\n{more}" if line else more
        if TOKEN.match(line) or NAME.match(line):
            yield line
            line = ""


def derivation(lines, text):
    """The derivation that these lines are."""
    root = Node("file")
    open_nodes = [(-1, root)]
    for line in whole_lines(lines):
        token, name = TOKEN.match(line), NAME.match(line)
        depth = len((token or name)[1])
        if token:
            kind, start, end = token[2], text.at(token[4], token[5]), text.at(token[6], token[7])
            word = token[3] or ""
            if kind == "SUBTREE":
                start = text.at(*re.search(r"(\d+):(\d+)\.\.\S+$", word).groups())
                word = word.split(" ")[0]
            node = Node(kind, word, start, end)
        else:
            node = Node(name[2])
        while open_nodes[-1][0] >= depth:
            open_nodes.pop()
        open_nodes[-1][1].add(node)
        open_nodes.append((depth, node))
    return root


class Call:
    """A call: the name of its macro, the node that took it, and its bytes."""

    def __init__(self, node, name, sign, subtree):
        self.node, self.sign, self.subtree = node, sign, subtree
        self.name, self.start, self.end = name.text, name.start, subtree.end

    def behind(self):
        """The text of the token behind it on its level, if there is one; and the innermost name that lists statements around it."""
        node = self.node
        while node.above and node.kind not in ("statements", "items", "external_items", "associated_items", "statement"):
            if node.start is not None:
                return None, None
            node = node.above
        tokens = list(node.tokens())
        at = next(n for n, it in enumerate(tokens) if it is self.subtree)
        return (tokens[at + 1].text if at + 1 < len(tokens) else ""), node

    def is_statement(self):
        """Whether it is a statement or an item by the grammar: not an expression at the end of a block."""
        if self.node.kind in ("macro_item", "closed_statement"):
            return True
        # an expression is a statement if a `;` follows it, and it is all of it
        node = self.node
        while node.above and node.above.start is None and node.above.kind not in ("statements", "statement"):
            node = node.above
            if [it for it in node.tokens() if it.start < self.start and not is_attribute_part(it, node)]:
                return False
            if list(node.tokens())[-1] is not self.subtree:
                return False
        if not node.above or node.above.kind != "statements":
            return False
        return (self.behind()[0] or "").startswith(";")


def is_attribute_part(token, node):
    """Whether a token is one of the attributes before an expression."""
    while token.above is not node and token.above is not None:
        token = token.above
        if token.kind == "attribute":
            return True
    return False


def calls_in(root):
    """The calls of macros by a plain name, in the order of the text."""
    waiting = [root]
    while waiting:
        node = waiting.pop()
        waiting.extend(reversed(node.below))
        if node.start is not None:
            continue
        if node.kind in ("attribute", "inner_attribute"):
            # what an attribute contains is none of them, and not every call in one is expanded
            del waiting[len(waiting) - len(node.below) :]
            continue
        tokens = list(node.tokens())
        own = [it for it in node.below if it.kind == "PUNCH" and it.text.startswith("! ")]
        for sign in own:
            at = tokens.index(sign)
            if at + 1 >= len(tokens) or tokens[at + 1].kind != "SUBTREE" or tokens[at + 1].above is not node:
                continue
            if at and tokens[at - 1].kind == "IDENT" and not (at > 1 and tokens[at - 2].text.startswith(":")):
                yield Call(node, tokens[at - 1], sign, tokens[at + 1])


def groups_of(calls):
    """The names of macros, in groups that have few enough calls for one run."""
    group, size = [], 0
    for name, count in collections.Counter(it.name for it in calls).items():
        if group and size + count > MOST:
            yield group
            group, size = [], 0
        group.append(name)
        size += count
    if group:
        yield group


def expressions(program, path, text, begin, names):
    """Where calls of these names are that count as no statements, and the end of the part of the text for which that is all."""
    head = " ".join(DEFINITION.format(name) for name in names) + " "
    path.write_text(text[:begin] + head + text[begin:], newline="")
    done = subprocess.run((program, "expand", str(path)), capture_output=True, timeout=SECONDS, check=False)
    whole = Text(text[:begin] + head + text[begin:])
    found = [whole.at(*it.groups()) - len(head) for it in REFUSED.finditer(done.stderr.decode())]
    return set(found), (max(found) if len(found) >= MOST else len(text))


def judged(program, path, text):
    """For each call of a text, whether it is a statement by the grammar, and by siblings; none if the text is no file."""
    path.write_text(text, newline="")
    done = subprocess.run((program, "tree", "--syntax", str(path)), capture_output=True, timeout=SECONDS, check=False)
    if done.returncode:
        return None
    root = derivation(done.stdout.decode().split("\n"), Text(text))
    calls = [it for it in calls_in(root) if it.name not in OTHERS and not it.name.startswith("r#")]
    item = next((it for node in root.below for it in node.below if it.kind == "item"), None)
    begin = min(it.start for it in item.tokens()) if item else len(text)
    told = []
    for names in groups_of(calls):
        refused, end = expressions(program, path, text, begin, names)
        told += [(it, it.is_statement(), it.start not in refused) for it in calls if it.name in names and it.start <= end]
    return told


def judge(program, path):
    """The same for a file, with the place of each call; an empty list if it cannot be read."""
    try:
        text = path.read_bytes().decode()
    except (OSError, UnicodeDecodeError):
        return []
    if "macro_rules" in text or text.startswith("\ufeff") or re.match(r"#!(?!\s*\[)", text):
        return []
    with tempfile.TemporaryDirectory() as room:
        told = judged(program, pathlib.Path(room) / "text.rs", text) or []
    return [(f"{path}:{text.count(chr(10), 0, it.start) + 1}: {text[it.start:it.end][:60]!r}", by_grammar, by_trees) for it, by_grammar, by_trees in told]


def main():
    """Compares all files."""
    parser = argparse.ArgumentParser(description=__doc__.splitlines()[0])
    parser.add_argument("program")
    parser.add_argument("paths", nargs="+", type=pathlib.Path)
    parser.add_argument("--show", type=int, default=40)
    asked = parser.parse_args()
    files = sorted({it for path in asked.paths for it in ([path] if path.is_file() else path.rglob("*.rs"))})
    counts, shown = collections.Counter(), 0
    with ThreadPoolExecutor(RUNS) as runs:
        for told in runs.map(lambda it: judge(asked.program, it), files):
            counts["files"] += bool(told)
            for place, by_grammar, by_trees in told:
                counts[by_grammar, by_trees] += 1
                if by_grammar != by_trees and shown < asked.show:
                    shown += 1
                    print(f"{place}: by the grammar {'a' if by_grammar else 'no'} statement")
    differ = counts[True, False] + counts[False, True]
    print(f"{counts['files']} files: {counts[True, True]} statements and {counts[False, False]} others agree, {differ} differ")
    return int(differ > 0)


if __name__ == "__main__":
    sys.exit(main())
