#!/usr/bin/env python3
"""Compares the trees of syntax_parse with the token trees that rustc makes of the same texts.

    compare_trees.py PROGRAM files PATH..           each file `*.rs` under the paths, judged in place
    compare_trees.py PROGRAM chance COUNT [SEED]    texts made by chance of the characters that matter
    compare_trees.py PROGRAM lines FILE             each line of a file

PROGRAM is the built bench_texts (crates/bench_texts/out/bench_texts). rustc of 1.95 or later is to be on PATH: a
procedural macro that is compiled in a temporary folder parses each text, and prints leaves, groups and spacing; a text is
refused if that fails or reports an error. Texts that both take are then given to it once more as its input, for the bytes
of each token. This script is no part of ./test. The last line says how many texts and tokens agree; the status is 1 if
any text differs.
"""

import os
import pathlib
import random
import re
import subprocess
import sys
import tempfile
import unicodedata

from compare_tokens import by_chance, files
from made_texts import Texts

BETWEEN_TEXTS = "\x01"
SHEBANG = re.compile(r"#!(?!\s*\[)")
# Classes of texts that one of both refuses alone: who does, and by which words (docs/DIFFERENCES.md).
CLASSES = {
    "a suffix of more than 255 bytes": ("ours", "suffix of more than 255 bytes"),
    "a comment whose text wants more than 255 hashes": ("ours", "more than 255 hashes"),
    "a suffix that is `_`": ("rustc", "underscore literal suffix"),
    "emoji in an identifier, which rustc reports later": ("ours", "invalid identifier"),
    "emoji in an identifier, which rustc reports at another text": ("rustc", "identifiers cannot contain emoji"),
    "emoji in an identifier, which rustc reports at another text too": ("rustc", "Ferris cannot be used as an identifier"),
    "a lifetime that begins with a digit, which rustc reports later": ("ours", "lifetime that begins with a digit"),
    "a raw lifetime right before a quote": ("rustc", "character literal may only contain one codepoint"),
    "a carriage return at the end, in a comment that documents something": ("rustc", "bare CR not allowed in doc-comment"),
    "a character that came with a later version of Unicode": ("rustc", "unknown start of token"),
}
BATCH = 4_000_000

ORACLE = r"""
#![feature(proc_macro_span)]
extern crate proc_macro;
use proc_macro::*;
use std::fmt::Write as _;
use std::io::Write;
use std::str::FromStr;

fn lines(out: &mut String, stream: TokenStream, depth: usize, from: usize) {
    let pad = "  ".repeat(depth);
    let at = |span: Span| {
        let bytes = span.byte_range();
        (bytes.start.wrapping_sub(from), bytes.end.wrapping_sub(from))
    };
    let mut quote = None;
    for tree in stream {
        match tree {
            TokenTree::Group(group) => {
                let signs = match group.delimiter() {
                    Delimiter::Parenthesis => "()",
                    Delimiter::Brace => "{}",
                    Delimiter::Bracket => "[]",
                    Delimiter::None => "$$",
                };
                let (open, close) = (at(group.span_open()), at(group.span_close()));
                writeln!(out, "{pad}SUBTREE {signs} {}..{} {}..{}", open.0, open.1, close.0, close.1).unwrap();
                lines(out, group.stream(), depth + 1, from);
            }
            TokenTree::Ident(ident) => {
                let (start, end) = at(ident.span());
                // The compiler gives the quote of a lifetime and its name the span of both.
                let start = quote.take().map_or(start, |quote: usize| quote + 1);
                writeln!(out, "{pad}IDENT   {ident} {start}..{end}").unwrap();
            }
            TokenTree::Punct(punct) => {
                let (start, mut end) = at(punct.span());
                if punct.as_char() == '\'' {
                    quote = Some(start);
                    end = start + 1;
                }
                let spacing = if punct.spacing() == Spacing::Joint { "joint" } else { "alone" };
                writeln!(out, "{pad}PUNCH   {} [{spacing}] {start}..{end}", punct.as_char()).unwrap();
            }
            TokenTree::Literal(literal) => {
                let (start, end) = at(literal.span());
                writeln!(out, "{pad}LITERAL {literal} {start}..{end}").unwrap();
            }
        }
    }
}

static TEXTS: std::sync::OnceLock<Vec<String>> = std::sync::OnceLock::new();

fn texts() -> Vec<String> {
    let all = std::fs::read_to_string(std::env::var("TEXTS").unwrap()).unwrap();
    all.split('\u{1}').map(String::from).collect()
}

// One call for each text: the compiler reports an error once for each place of a call.
#[proc_macro]
pub fn text(number: TokenStream) -> TokenStream {
    let number: usize = number.to_string().parse().unwrap();
    eprintln!("@text {number}");
    let mut shown = String::new();
    let one = &TEXTS.get_or_init(texts)[number];
    // Some errors end the compiler's own parser.
    match std::panic::catch_unwind(|| TokenStream::from_str(one)) {
        Ok(Ok(stream)) => lines(&mut shown, stream, 0, 0),
        Ok(Err(error)) => writeln!(shown, "refused: {error}").unwrap(),
        Err(_) => writeln!(shown, "refused").unwrap(),
    }
    tell(&shown);
    TokenStream::new()
}

fn tell(shown: &str) {
    let mut out = std::fs::OpenOptions::new().append(true).open(std::env::var("SHOWN").unwrap()).unwrap();
    write!(out, "{shown}\u{1}\n").unwrap();
}

#[proc_macro]
pub fn input(stream: TokenStream) -> TokenStream {
    let mut trees = stream.into_iter();
    let from = match trees.next() {
        Some(TokenTree::Ident(mark)) => mark.span().byte_range().end + 1,
        _ => panic!("no mark"),
    };
    let mut shown = String::new();
    lines(&mut shown, trees.collect(), 0, from);
    tell(&shown);
    TokenStream::new()
}
"""


class Rustc:
    """The procedural macros, and what they make of texts."""

    def __init__(self, folder):
        self.folder = folder
        self.environment = {
            **os.environ, "RUSTC_BOOTSTRAP": "1", "TEXTS": str(folder / "texts"), "SHOWN": str(folder / "shown"),
        }
        (folder / "oracle.rs").write_text(ORACLE, encoding="utf-8")
        self.rustc("--crate-type", "proc-macro", "-O", "oracle.rs", "-o", "liboracle.so").check_returncode()

    def rustc(self, *arguments):
        """Calls the compiler in the folder."""
        return subprocess.run(
            ["rustc", "--edition", "2024", *arguments], cwd=self.folder, env=self.environment, capture_output=True,
            encoding="utf-8", errors="backslashreplace", check=False,
        )

    def compile(self, source):
        """Compiles a program that calls the macros. Returns what they wrote for each text, and what the compiler reported."""
        (self.folder / "shown").write_text("", encoding="utf-8")
        (self.folder / "user.rs").write_bytes(source)
        done = self.rustc("--emit=metadata", "-L", ".", "--extern", "oracle=liboracle.so", "user.rs")
        return (self.folder / "shown").read_text(encoding="utf-8").split(BETWEEN_TEXTS + "\n")[:-1], done.stderr

    def trees(self, texts):
        """The trees of each text without their bytes, or that it is refused."""
        (self.folder / "texts").write_bytes(BETWEEN_TEXTS.join(texts).encode())
        calls = "".join(f"oracle::text!({number});\n" for number in range(len(texts)))
        shown, told = self.compile(calls.encode() + b"fn main() {}\n")
        if len(shown) != len(texts):
            sys.exit(f"the compiler showed {len(shown)} texts of {len(texts)}: {told[-2000:]}")
        for part in re.split(r"^@text ", told, flags=re.MULTILINE)[1:]:
            number, _, rest = part.partition("\n")
            error = re.search(r"^error(?!: aborting).*", rest, re.MULTILINE)
            if error and not shown[int(number)].startswith("refused"):
                shown[int(number)] = f"refused: {error[0]}\n"
        return [tree if tree.startswith("refused") else without_bytes(tree) for tree in shown]

    def places(self, texts):
        """The trees of texts that are read, with the bytes of each token."""
        source = b"".join(b"oracle::input!{m " + text.encode() + b"\n}\n" for text in texts) + b"fn main() {}\n"
        shown, told = self.compile(source)
        if len(shown) != len(texts):
            sys.exit(f"the compiler showed {len(shown)} texts of {len(texts)}: {told[-2000:]}")
        return shown


def without_bytes(tree):
    """The lines without the bytes of tokens."""
    return re.sub(r"( \d+\.\.\d+)+$", "", tree, flags=re.MULTILINE)


ROUND = {
    "Integer": ("", ""), "Float": ("", ""), "Err": ("", ""), "Byte": ("b'", "'"), "Char": ("'", "'"), "Str": ('"', '"'),
    "ByteStr": ('b"', '"'), "CStr": ('c"', '"'), "StrRaw": ('r{}"', '"{}'), "ByteStrRaw": ('br{}"', '"{}'),
    "CStrRaw": ('cr{}"', '"{}'),
}


def as_rustc(tree):
    """Our lines, with literals as they are written, and spans as their bytes alone. A punct right before a lifetime is joint
    here; the compiler has it so too, but shows it to a procedural macro as alone."""
    tree = re.sub(r"0:0@(\d+\.\.\d+)#0", r"\1", tree)
    tree = re.sub(r"\[joint\]( \d+\.\.\d+\n *PUNCH   ' \[joint\])", r"[alone]\1", tree)

    def written(found):
        kind, hashes, text, span = found.groups()
        opening, closing = ROUND[kind]
        signs = "#" * int(hashes) if hashes and hashes != "()" else ""
        return f"LITERAL {opening.format(signs)}{text}{closing.format(signs)} {span}\n"

    tree = re.sub(r"LITERAL (\w+)(?:\((\d+|\(\))\))? (.*?) (\d+\.\.\d+)\n", written, tree, flags=re.DOTALL)
    return comments_as_rustc(tree)


ESCAPES = {"\n": "\\n", "\r": "\\r", "\t": "\\t", "\0": "\\0", "\\": "\\\\", "'": "\\'", '"': '\\"'}
COMMENT = re.compile(
    r'(IDENT   doc (\d+\.\.\d+)\n *PUNCH   = \[alone\] \2\n *LITERAL )r(#*)"(.*?)"\3 \2\n', re.DOTALL,
)


def is_plain(char):
    """Whether the compiler writes a character as it is."""
    return char.isprintable() and unicodedata.category(char) not in ("Mn", "Me")


def escaped(text):
    """A text as the compiler writes it in a string."""
    return "".join(ESCAPES.get(char) or (char if is_plain(char) else f"\\u{{{ord(char):x}}}") for char in text)


def comments_as_rustc(tree):
    """The lines, with the text of each comment as the compiler gives it to a procedural macro: as a string with escapes."""
    return COMMENT.sub(lambda found: f'{found[1]}"{escaped(found[4])}" {found[2]}\n', tree)


def same_line(ours, theirs):
    """Whether two lines are one. The compiler gives identifiers the normal form NFC."""
    return ours == theirs or "IDENT" in ours and unicodedata.normalize("NFC", ours) == theirs


def alike(ours, theirs):
    """Whether two shown trees are one."""
    ours, theirs = ours.strip().split("\n"), theirs.strip().split("\n")
    return ours == theirs or len(ours) == len(theirs) and all(map(same_line, ours, theirs))


def first_difference(ours, theirs):
    """The first line that differs."""
    ours, theirs = ours.strip().split("\n") + ["the end"], theirs.strip().split("\n") + ["the end"]
    return next((f"ours {a!r}, rustc's {b!r}" for a, b in zip(ours, theirs) if not same_line(a, b)), "one is longer")


def ours_of(program, texts):
    """Our trees, or why a text has none."""
    done = subprocess.run([program, "trees", "show"], input=BETWEEN_TEXTS.join(texts).encode(), capture_output=True, check=True)
    shown = done.stdout.decode().split(BETWEEN_TEXTS + "\n")[:-1]
    return [as_rustc(tree) if not tree.startswith("refused") else tree for tree in shown]


class Judge:
    """Compares texts, and counts what agrees."""

    def __init__(self, program, rustc):
        self.program, self.rustc = program, rustc
        self.texts = self.tokens = self.refused = 0
        self.different, self.known = [], {}

    def refused_by_one(self, name, ours, theirs):
        """Notes a text that one of both refuses."""
        told = {"ours": ours, "rustc": theirs}
        for name_of_class, (who, words) in CLASSES.items():
            if told[who].startswith("refused") and words in told[who]:
                self.known[name_of_class] = self.known.get(name_of_class, 0) + 1
                return
        self.different.append((name, f"ours {ours.splitlines()[:1]}, rustc's {theirs.splitlines()[:1]}"))

    def compare(self, names, texts):
        """Compares these texts: first what is read, then the bytes of what both read."""
        ours, theirs = ours_of(self.program, texts), self.rustc.trees(texts)
        if len(ours) != len(texts):
            sys.exit(f"{self.program} showed {len(ours)} texts of {len(texts)}")
        both = []
        for name, text, one, other in zip(names, texts, ours, theirs):
            if one.startswith("refused") and other.startswith("refused"):
                self.refused += 1
            elif one.startswith("refused") or other.startswith("refused"):
                self.refused_by_one(name, one, other)
            elif not alike(without_bytes(one), other):
                self.different.append((name, first_difference(without_bytes(one), other)))
            else:
                both.append((name, text, one))
        for (name, _, one), other in zip(both, self.rustc.places([text for _, text, _ in both]) if both else []):
            if alike(one, other):
                self.texts += 1
                self.tokens += other.count("\n")
            else:
                self.different.append((name, first_difference(one, other)))

    def tell(self):
        """Prints what differs, and the counts."""
        for name, what in self.different[:40]:
            print(f"FAILED: {name}: {what}")
        for name, count in self.known.items():
            print(f"{count} texts: {name}")
        print(f"{self.texts} texts agree, of {self.tokens} lines; {self.refused} both refuse; {len(self.different)} differ")
        sys.exit(1 if self.different else 0)


class Made(Texts):
    """Texts made by chance."""

    def __init__(self, seed):
        self.chance = random.Random(seed)
        self.pick, self.below = self.chance.choice, self.chance.randrange

    def happens(self, chance):
        """Whether something of that chance happens."""
        return self.chance.random() < chance

    def text(self):
        """A text."""
        return by_chance(self.chance) if self.happens(0.3) else self.rust_text(self.pick((1, 2, 3, 6, 12)))


def batches(pairs):
    """Names and texts, some megabytes at a time; line ends and the mark at the head as the compiler has them once a file is
    read."""
    names, texts, size = [], [], 0
    for name, text in pairs:
        text = text.replace("\r\n", "\n").lstrip("\ufeff")
        if SHEBANG.match(text):
            print(f"left out, for the first line, which the compiler cuts off: {name}")
            continue
        names.append(name)
        texts.append(text)
        size += len(text)
        if size > BATCH or len(texts) == 20_000:
            yield names, texts
            names, texts, size = [], [], 0
    if texts:
        yield names, texts


def main():
    """Runs the mode that the arguments name."""
    if len(sys.argv) < 4 or sys.argv[2] not in ("files", "chance", "lines"):
        sys.exit(__doc__)
    program, mode, rest = sys.argv[1], sys.argv[2], sys.argv[3:]
    if mode == "files":
        pairs = files(rest)
    elif mode == "lines":
        pairs = ((repr(line), line) for line in pathlib.Path(rest[0]).read_text(encoding="utf-8").split("\n"))
    else:
        made = Made(int(rest[1]) if len(rest) > 1 else 1)
        pairs = ((repr(text), text) for text in (made.text() for _ in range(int(rest[0]))))
    with tempfile.TemporaryDirectory() as folder:
        judge = Judge(program, Rustc(pathlib.Path(folder)))
        for names, texts in batches(pairs):
            judge.compare(names, texts)
        judge.tell()


if __name__ == "__main__":
    main()
