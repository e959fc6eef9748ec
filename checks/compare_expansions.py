#!/usr/bin/env python3
"""Texts whose macros are expanded, beside rustc: compare_expansions.py PROGRAM [--crates FOLDER..] [--made N] [--first SEED]

PROGRAM is `cuvolemin`. Each file of a crate in a FOLDER, which needs no other crate, is expanded by it, and put back in a copy of
the crate. What rustc then expands that copy to is compared with what it expands the crate to, token by token, as PROGRAM prints
tokens. The same is done with N files that are made by chance, each a crate of its own; these are run too, as they are and
expanded, and what they print is compared. With --one-line PROGRAM must write the same tokens. It prints how many files agree, how
many do but for parentheses, how many are refused or have calls that are left, by the first diagnostic, and each file that differs.
No part of the gate: it needs rustc (--rustc gives its path).
"""
import argparse
import collections
import functools
import json
import os
import re
import shutil
import subprocess
import tempfile
from pathlib import Path

import made_programs

NO_TOKENS = ("Whitespace", "LineComment { doc_style: None }", "BlockComment { doc_style: None")


def output_of(*words, given=None):
    """The bytes that a run wrote, its diagnostics, and its status."""
    done = subprocess.run(words, input=given, capture_output=True, check=False)
    return done.returncode, done.stdout, done.stderr


class Compiler:
    """rustc, which expands a crate."""

    def __init__(self, rustc):
        self.rustc = rustc

    def expands(self, root, edition):
        """What a crate is expanded to, and the errors that rustc reports."""
        status, written, told = output_of(
            "env", "RUSTC_BOOTSTRAP=1", self.rustc, "--edition", edition, "--crate-type", "lib", "--crate-name", "made",
            "--cap-lints", "allow", "--error-format", "json", "-Zunpretty=expanded", str(root),
        )
        messages = [json.loads(line) for line in told.decode().splitlines() if line.startswith("{")]
        return status, written, [it for it in messages if it.get("level") == "error" and it.get("spans")]

    def runs(self, text, room):
        """What a program prints; None if it is not compiled."""
        source, program = Path(room) / "main.rs", Path(room) / "main"
        source.write_bytes(text)
        status, _, told = output_of(self.rustc, "--edition", "2024", "-Awarnings", "-o", str(program), str(source))
        return output_of(str(program))[1] if status == 0 else told


@functools.lru_cache(maxsize=4)
def tokens_of(program, text):
    """The tokens of a text, but for white space and comments that document nothing."""
    _, lines, _ = output_of(program, "tokens", "-", given=text)
    tokens = []
    for line in lines.decode().splitlines():
        words = line.split(" ", 1)[1]
        if not words.startswith(NO_TOKENS):
            tokens.append(re.search(r'"(.*)"$', words)[1])
    return documented(tokens)


def documented(tokens):
    """The tokens, in which a doc comment and its attribute are the same one token, as they are to the compiler."""
    found, n = [], 0
    while n < len(tokens):
        text = re.fullmatch(r'r(#*)\\"(.*)\\"\1', tokens[n + 4]) if tokens[n : n + 4] == ["#", "[", "doc", "="] and len(tokens) > n + 5 else None
        if text and tokens[n + 5] == "]":
            found.append(f"/// {text[2].strip()}")
            n += 6
            continue
        found.append(f"/// {tokens[n][3:].strip()}" if tokens[n].startswith("///") else tokens[n])
        n += 1
    return found


def without_empty(tokens):
    """The tokens, but for each `;` right behind a `;` or a brace: a statement that is nothing, or the end of one that has braces there."""
    return [it for n, it in enumerate(tokens) if it != ";" or n == 0 or tokens[n - 1] not in (";", "{", "}")]


def without_parentheses(tokens):
    """The tokens without parentheses, also in the texts of assertions, which show their expressions."""
    return [re.sub("[()]", "", it) for it in tokens if it not in ("(", ")")]


def without_braces(tokens):
    """The tokens without braces and `;`: under a condition, an expression among statements is in braces."""
    return [it for it in tokens if it not in ("{", "}", ";")]


def class_of(program, ours, theirs):
    """How two texts compare."""
    ours, theirs = tokens_of(program, ours), tokens_of(program, theirs)
    if ours == theirs:
        return "agree"
    if without_empty(ours) == without_empty(theirs):
        return "agree but for a `;`"
    ours, theirs = without_parentheses(ours), without_parentheses(theirs)
    if without_empty(ours) == without_empty(theirs):
        return "agree but for parentheses"
    if without_braces(ours) == without_braces(theirs):
        return "agree but for braces"
    ours, theirs = without_empty(ours), without_empty(theirs)
    at = next((n for n, (a, b) in enumerate(zip(ours, theirs)) if a != b), min(len(ours), len(theirs)))
    return f"DIFFER: {' '.join(ours[max(0, at - 8) : at + 6])} | {' '.join(theirs[max(0, at - 8) : at + 6])}"


def first_message(told):
    """The first line of the diagnostics, without names."""
    return re.sub(r"`[^`]*`", "`..`", told.decode().splitlines()[0]) if told else ""


def compare_file(program, compiler, root, edition, path, theirs):
    """How a file of a crate compares, and the text that was compared, if one was."""
    text = path.read_bytes()
    status, ours, told = output_of(program, "expand", str(path))
    if status:
        return f"refused: {first_message(told)}", None
    if tokens_of(program, ours) != tokens_of(program, output_of(program, "expand", "--one-line", str(path))[1]):
        return "DIFFER: --one-line writes other tokens", None
    if ours == text:
        return (f"nothing expanded: {first_message(told)}" if told else "no call of a macro of its own"), None
    path.write_bytes(ours)
    _, written, errors = compiler.expands(root, edition)
    path.write_bytes(text)
    if errors:
        return f"DIFFER: rustc refuses what is written: {errors[0]['message']}", None
    return class_of(program, written, theirs) + (", some calls left" if told else ""), ours


def compare_crate(program, compiler, folder, counts):
    """Each file of a crate."""
    with tempfile.TemporaryDirectory() as room:
        copy = Path(room) / "made"
        shutil.copytree(folder, copy)
        manifest = copy / "Cargo.toml"
        edition = re.search(r'^edition = "(\d+)"', manifest.read_text() if manifest.exists() else "", re.M)
        edition = edition[1] if edition else "2015"
        root = next((it for it in (copy / "src" / "lib.rs", copy / "lib.rs") if it.exists()), None)
        if root is None:
            counts["no crate"] += 1
            return
        status, theirs, errors = compiler.expands(root, edition)
        if status or errors:
            counts["a crate that rustc does not expand alone"] += 1
            return
        for path in sorted(root.parent.rglob("*.rs")):
            found, _ = compare_file(program, compiler, root, edition, path, theirs)
            counts[found.split(":")[0] if found.startswith("DIFFER") else found] += 1
            if found.startswith("DIFFER"):
                print(f"{folder}: {path.relative_to(copy)}: {found}")


def compare_made(program, compiler, seed, counts):
    """A file that is made by chance: what rustc expands it to, and what it prints."""
    with tempfile.TemporaryDirectory() as room:
        text = made_programs.made(seed).encode()
        path = Path(room) / "made.rs"
        path.write_bytes(text)
        status, theirs, errors = compiler.expands(path, "2024")
        if status or errors:
            counts[f"made: rustc refuses: {errors[0]['message'][:60] if errors else ''}"] += 1
            return
        found, ours = compare_file(program, compiler, path, "2024", path, theirs)
        counts[f"made: {found.split(':')[0] if found.startswith('DIFFER') else found}"] += 1
        if found.startswith("DIFFER"):
            print(f"seed {seed}: {found}")
        if ours is not None:
            same = compiler.runs(text, room) == compiler.runs(ours, room)
            counts["made: prints the same" if same else "made: DIFFER in what is printed"] += 1
            if not same:
                print(f"seed {seed}: prints something else")


def main():
    """Compares all, and prints how many there are of each class."""
    parser = argparse.ArgumentParser(description=__doc__.splitlines()[0])
    parser.add_argument("program")
    parser.add_argument("--crates", nargs="*", default=[])
    parser.add_argument("--made", type=int, default=0)
    parser.add_argument("--first", type=int, default=0)
    parser.add_argument("--rustc", default=os.environ.get("RUSTC", "rustc"))
    given = parser.parse_args()
    counts = collections.Counter()
    for folder in given.crates:
        compare_crate(given.program, Compiler(given.rustc), Path(folder), counts)
    for seed in range(given.first, given.first + given.made):
        compare_made(given.program, Compiler(given.rustc), seed, counts)
    for what, number in sorted(counts.items()):
        print(f"{number:6} {what}")


if __name__ == "__main__":
    main()
