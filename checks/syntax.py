#!/usr/bin/env python3
"""Whether texts are files of Rust, by the program `cuvolemin`: syntax.py PROGRAM

Each row of syntax_rows.txt, which says how to read it, is a text. `tree --syntax` and `check` take it, and the derivation has the row's
name; or both refuse it at the row's place. Texts that repeat a piece which a table could read over and over are refused too, and soon. It
prints a line for each, `ok ROW` or `FAILED ROW: WHY`, and one for each name or bracket of docs/GRAMMAR.md that has no row; the status is 1
if one failed.
"""
import collections
import pathlib
import re
import subprocess
import sys
import tempfile
from concurrent.futures import ThreadPoolExecutor
from functools import partial
from typing import NamedTuple, Optional

from program_files import Files, Wrong, wants

CHECKS = pathlib.Path(__file__).resolve().parent
ROWS = CHECKS / "syntax_rows.txt"
PAGE = CHECKS.parent / "docs" / "GRAMMAR.md"
HEAD = re.compile(
    r"(?P<verdict>takes|sees|refuses) (?:(?P<bracket>\w+\(\w+\)) of )?(?P<name>\w+)"
    r"(?: (?P<place>\d+:\d+))?(?: \(rustc (?P<other>\d+:\d+)\))?"
)
# Names of fragments that no file uses.
OF_FRAGMENTS = {"expression_2021_fragment", "pattern_fragment", "pattern_param_fragment", "statement"}
# The names of trees that are no file.
OF_NO_FILE = {"tokens", "loose_macro_rules_item"}
# Runs at a time.
RUNS = 4
# How often a piece is repeated. A table that reads it twice at each place would read for ever.
TIMES = 2000
# Texts that are no file: what precedes the pieces, the piece, and what follows. The piece may begin an alternative that fails far behind.
REPEATED = [
    ("fn f() { ", "- while a ", "> b }"), ("fn f() { ", "- if a {} ", "=> }"), ("fn f() { if ", "- while a ", "}"),
    ("fn f() { if ", "break ", "=> }"), ("fn f() { if a || ", "b < - while ", "}"), ("fn f() { if let a = ", "- while b ", "}"),
    ("fn f() { match a { b if ", "- while c ", "} }"), ("fn f() { match a { b if let c = ", "- while d ", "} }"),
    ("fn f() { ", "|a| ", "}"), ("fn f() { ", "& - ", "}"), ("fn f() { let ", "& ", "; }"), ("fn f() { a", ".. ", "=> }"),
    ("fn f() { ", "<A as ", "}"), ("fn f() { for ", "<A as ", "}"), ("fn f() { a as ", "A<", "; }"), ("fn f() { ", "a::<", "}"),
    ("type A = ", "B<", ";"), ("type A = ", "B<C = ", ";"), ("type A = ", "<B as ", ";"), ("type A = ", "for<'a> fn() -> ", ";"),
    ("type A = ", "&dyn ", ";"), ("fn f() where ", "A<", "{}"), ("impl ", "A<", "{}"), ("impl<", "A: B<", "{}"), ("", "#[a] pub ", ""),
]


class Row(NamedTuple):
    """A text, and what becomes of it."""

    line: int
    head: str
    verdict: str
    bracket: Optional[str]
    name: str
    # the place at which the table refuses it, and that of the compiler if it is another one
    place: Optional[str]
    other: Optional[str]
    text: str
    message: Optional[str]

    def __str__(self):
        return f"line {self.line}: {self.head}"


def row_of(number, line):
    """The row of that line."""
    head, text = line.split(": ", 1)
    found = HEAD.fullmatch(head)
    if not found or (found["place"] is None) == (found["verdict"] == "refuses"):
        raise ValueError(f"{ROWS.name}:{number}: {line}")
    return Row(line=number, head=head, text=text.replace("\\n", "\n").replace("\\t", "\t"), message=None, **found.groupdict())


def read_rows():
    """All rows."""
    rows = []
    for number, line in enumerate(ROWS.read_text(encoding="utf-8").splitlines(), 1):
        if line.startswith("    "):
            rows[-1] = rows[-1]._replace(message=line.strip())
        elif line and line[0] != "#":
            rows.append(row_of(number, line))
    return rows


def brackets_of_page():
    """The names of the page, each with its brackets that have named contents."""
    for block in re.findall(r"```text\n(.*?)```", PAGE.read_text(encoding="utf-8"), re.S):
        for line in block.splitlines():
            name, expression = line.rsplit("   # ", 1)[0].split(" = ", 1)
            yield name, re.findall(r"(?:PAREN|BRACK|BRACE)\(\w+\)", expression)


def without_row(rows):
    """The names and brackets of the page that have too few rows, and the rows of names that it does not have."""
    page = dict(brackets_of_page())
    taken = {row.name for row in rows if row.verdict != "refuses"}
    refused = collections.Counter((row.name, row.bracket) for row in rows if row.bracket)
    yield from (f"{name} of docs/GRAMMAR.md has no row" for name in page if name not in taken | OF_FRAGMENTS | OF_NO_FILE)
    yield from (f"docs/GRAMMAR.md has no {name}" for name in sorted((taken | OF_FRAGMENTS | OF_NO_FILE | {row.name for row in rows}) - set(page)))
    for name, brackets in page.items():
        for bracket, count in collections.Counter(brackets if name not in OF_NO_FILE else []).items():
            if refused[name, bracket] < count:
                yield f"{bracket} of {name} has {refused[name, bracket]} rows for {count} places"


def indent(line):
    """How many spaces a line begins with."""
    return len(line) - len(line.lstrip(b" "))


def takes_tokens(lines, name):
    """Whether a line of the derivation is this name, and others belong to it."""
    pairs = zip(lines, lines[1:])
    return any(line.strip() == name.encode() and indent(line) < indent(after) for line, after in pairs)


def try_file(files, row, path):
    """The text is a file, and the derivation has the name of the row."""
    files.gives(b"", "check", path)
    status, written, told = files.run("tree", "--syntax", path)
    wants("the run of tree --syntax", (status, told), (0, b""))
    if takes_tokens(written.splitlines(), row.name) != (row.verdict == "takes"):
        kind = "does not take any tokens" if row.verdict == "takes" else "takes tokens"
        raise Wrong(f"{row.name} {kind} in the derivation of {row.text!r}")


def try_refused(files, row, path):
    """Both commands refuse the text at the place of the row."""
    for words in (("check", path), ("tree", "--syntax", path)):
        status, written, told = files.run(*words)
        wants(f"status and output of {words[0]} over {row.text!r}", (status, written), (1, b""))
        first, place = (told.decode().split("\n") + ["", ""])[:2]
        wants(f"the place that {words[0]} reports in {row.text!r}", place, f" --> {path}:{row.place}")
        if row.message:
            wants(f"the message of {words[0]} over {row.text!r}", first, f"error: {row.message}")
        elif not first.startswith("error: expected ") or ", found " not in first:
            raise Wrong(f"the message of {words[0]} over {row.text!r}: {first}")


def try_repeated(files, what, path):
    """`check` refuses the text, in time."""
    status, written, told = files.run("check", path)
    wants(f"status and output of check over {what}", (status, written), (1, b""))
    if b"error: " not in told:
        raise Wrong(f"check over {what} reports no error: {told!r}")


def tried(files, number, text):
    """Why a text failed, the one of that number; none if it did not."""
    try_one, what, code = text
    try:
        try_one(files, what, files.made(f"text{number}.rs", code.encode()))
        return None
    except (Wrong, OSError, UnicodeDecodeError, subprocess.TimeoutExpired) as why:
        return str(why).replace("\n", " ")


def main():
    """Tries all rows, and says of each how it went."""
    rows = read_rows()
    failed = list(without_row(rows))
    for why in failed:
        print(f"FAILED rows: {why}")
    with tempfile.TemporaryDirectory() as room, ThreadPoolExecutor(RUNS) as runs:
        files = Files(sys.argv[1], room)
        texts = [(try_refused if row.verdict == "refuses" else try_file, row, row.text) for row in rows]
        texts += [(try_repeated, f"{it[1]!r} over and over", it[0] + it[1] * TIMES + it[2]) for it in REPEATED]
        for (_, what, _), why in zip(texts, runs.map(partial(tried, files), range(len(texts)), texts)):
            print(f"FAILED {what}: {why}" if why else f"ok {what}", flush=True)
            failed += [why] if why else []
    return int(bool(failed))


if __name__ == "__main__":
    sys.exit(main())
