#!/usr/bin/env python3
"""Whether the repository keeps its own rules: house.py

A line is printed for each rule, `ok RULE` or `FAILED RULE: WHY`; the status is 1 if one failed.
"""
import filecmp
import importlib.util
import os
import pathlib
import re
import shutil
import subprocess
import sys
import tempfile

TOP = pathlib.Path(__file__).resolve().parent.parent
CHECKS = TOP / "checks"

# A file of code, definitions or proofs has at most so many lines.
MOST_LINES = 400

# What checks/lay_out_grammar.py makes: tables.
MADE = (
    "src/rust.rt", "src/rust_marks.rt", "src/rust_known.rt", "src/rust_names.rt", "specs/Names.antt", "specs/Rust.antt",
    "proofs/RustLaid.antt")

# The crates whose public calls are made with memory refused, and the types of these calls.
SWEPT_CRATES = ("tt_base", "tt_view", "tt", "tt_bytes", "syntax_parse", "syntax_unparse", "mbe_rule", "mbe_rules")
SWEPT_TYPES = ("", "Cursor", "Ident", "Levels", "Literal", "MacroRules", "Rule", "Symbol", "TopSubtree", "TopSubtreeBuilder", "TreeWalk")

# Public calls that may fail but have no row in checks/sweep.py, and why.
NOT_SWEPT = {
    "tt_base::Texts::symbol": "parse_to_token_tree calls it",
    "tt_base::Texts::symbol_of_bytes": "the console calls it",
    "tt_base::new_symbol": "symbol_of_bytes calls it",
    "tt_view::TopSubtree::from_interned": "build calls it",
    "tt_view::TopSubtree::from_small": "FlatBuilder::build calls it",
    "tt_view::TopSubtree::from_interned_node": "build_skip_top_subtree calls it",
    "tt::FlatBuilder::with_capacity": "parse_to_token_tree calls it",
    "tt::FlatBuilder::open": "parse_to_token_tree calls it",
    "tt::FlatBuilder::push": "parse_to_token_tree calls it",
    "tt::FlatBuilder::build": "parse_to_token_tree calls it",
    "syntax_unparse::is_writable": "rust_text does the same for each leaf",
    "mbe_rules::MacroRules::expand_within": "MacroRules::expand does the same without a limit",
    "mbe_rules::Template::new": "MacroRules::new calls it",
    "mbe_rules::Template::fault": "MacroRules::faults calls it",
    "mbe_rules::Template::transcribe": "MacroRules::expand calls it",
}


def files_of(crate, *parts):
    """The files of code or of proofs in those folders of a crate."""
    return [file for part in parts for file in sorted((crate / part).rglob("*")) if file.suffix in (".rt", ".antt")]


def listed_crates():
    """The crates of crates.txt, each with the group that the comment above it names."""
    crates, group = {}, ""
    for line in (TOP / "crates.txt").read_text(encoding="utf-8").splitlines():
        if found := re.match(r"# (\w+): ", line):
            group = found.group(1)
        elif found := re.match(r"(\w+)[^:]*:", line):
            crates[found.group(1)] = group
    return crates


def crates_are_listed():
    """Each folder of crates/ has a line in crates.txt under its group, and a row in docs/ARCHITECTURE.md, and nothing else has."""
    crates = listed_crates()
    folders = {folder.name for folder in (TOP / "crates").iterdir() if (folder / "src").is_dir()}
    yield from (f"crates.txt and crates/ differ in {name}" for name in sorted(folders ^ set(crates)))
    yield from (f"{name} is under {group} in crates.txt" for name, group in crates.items() if name.split("_")[0] != group)
    page = (TOP / "docs/ARCHITECTURE.md").read_text(encoding="utf-8")
    rows = set(re.findall(r"^\| `(\w+)` \|", page, re.M))
    yield from (f"docs/ARCHITECTURE.md and crates.txt differ in {name}" for name in sorted(rows ^ set(crates)))


def load(path):
    """A script as a module, without its last line, which runs it."""
    text = path.read_text(encoding="utf-8").rsplit("\nmain()", 1)[0]
    module = importlib.util.module_from_spec(importlib.util.spec_from_loader(path.stem, loader=None))
    module.__file__ = str(path)
    exec(compile(text, str(path), "exec"), module.__dict__)  # noqa: S102
    return module


def fallible_calls(crate):
    """The calls that a crate exports and that answer with a `Result` whose error is no `()`, as (type, name)."""
    exported = re.findall(r"\w+", (TOP / "crates" / crate / "src/lib.rt").read_text(encoding="utf-8"))
    marks = re.compile(r"^impl(?:<[^>]*>)? (?:[^{\n]* for )?(\w+)|^(\})|^ *pub fn (\w+)(.*?)(?=\s(?:requires|ensures|\{))", re.M | re.S)
    for file in files_of(TOP / "crates" / crate, "src"):
        kind = ""
        for mark in marks.finditer(file.read_text(encoding="utf-8")):
            owner, end, name, signature = mark.groups()
            if owner or end:
                kind = owner or ""
            elif "-> Result<" in signature and ", ()>" not in signature and (kind or name) in exported:
                yield kind, name


def calls_are_swept():
    """Each public call that may want memory has a row in checks/sweep.py, or NOT_SWEPT says why not."""
    sweep = load(CHECKS / "sweep.py")
    rows = {name for program in sweep.TAKE_MEMORY.values() for lines in program.values() for name in " ".join(lines).split()}
    found = {f"{crate}::{kind}::{name}".replace("::::", "::"): (kind, name) for crate in SWEPT_CRATES for kind, name in fallible_calls(crate)}
    for call, (kind, name) in found.items():
        is_row = kind in SWEPT_TYPES and (name in rows or f"{kind}::{name}" in rows)
        if call not in NOT_SWEPT and not is_row:
            yield f"{call} has no row in checks/sweep.py and no reason why not"
    yield from (f"there is no {call}" for call in NOT_SWEPT if call not in found)


def grammar_is_made():
    """The constant of the grammar is what checks/lay_out_grammar.py makes of docs/GRAMMAR.md."""
    here = TOP / "crates/mbe_grammar"
    with tempfile.TemporaryDirectory() as room:
        there = pathlib.Path(room, "crates/mbe_grammar")
        for part in ("src", "specs", "proofs"):
            shutil.copytree(here / part, there / part)
        shutil.copy(TOP / "crates.txt", room)
        for made in MADE:
            (there / made).unlink()
        subprocess.run([sys.executable, str(CHECKS / "lay_out_grammar.py"), str(there)], check=True)
        subprocess.run(["rt", "fmt"], cwd=there, check=True, capture_output=True)
        yield from (f"{made} is not what docs/GRAMMAR.md says" for made in MADE if not filecmp.cmp(here / made, there / made, shallow=False))


def links_lead_somewhere():
    """Each link of a document leads to a file."""
    for page in [TOP / "README.md", *sorted((TOP / "docs").glob("*.md")), TOP / "examples/README.md"]:
        for link in re.findall(r"\]\(([^)#\s]+)[^)]*\)", page.read_text(encoding="utf-8")):
            if "://" not in link and not (page.parent / link).exists():
                yield f"{page.relative_to(TOP)} links to {link}, which is not there"


def files_are_short():
    """No file is too long, but for tables that are made."""
    for name in listed_crates():
        for file in files_of(TOP / "crates" / name, "src", "specs", "proofs"):
            lines = file.read_text(encoding="utf-8").count("\n")
            if lines > MOST_LINES and str(file.relative_to(TOP / "crates" / name)) not in MADE:
                yield f"{file.relative_to(TOP)} has {lines} lines"


RULES = {
    "each crate is listed under its group": crates_are_listed,
    "each public call is swept": calls_are_swept,
    "the grammar is the page's": grammar_is_made,
    "each link leads somewhere": links_lead_somewhere,
    "no file is too long": files_are_short,
}


def main():
    """Judges the rules one after the other."""
    fine = True
    for name, rule in RULES.items():
        wrong = list(rule())
        fine &= not wrong
        for why in wrong:
            print(f"FAILED {name}: {why}")
        if not wrong:
            print(f"ok {name}")
    sys.exit(not fine)


main()
