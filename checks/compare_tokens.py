#!/usr/bin/env python3
"""Compares the tokens of syntax_lex with those of rustc's own lexer, field by field, and times both.

    compare_tokens.py PROGRAM files PATH..          each file `*.rs` under the paths, judged in place
    compare_tokens.py PROGRAM chance COUNT [SEED]   texts made by chance of the characters that matter
    compare_tokens.py PROGRAM characters            each character alone, and behind a letter
    compare_tokens.py PROGRAM time PATH..           processor time a byte of both, over all files under the paths in one text

PROGRAM is the built bench_texts (crates/bench_texts/out/bench_texts). rustc of 1.95 or later is to be on PATH: the step
of its lexer is exported by the compiler's own library, and a small program that calls it is compiled in a temporary folder.
It is no stable interface, so a rustc whose tokens have other fields does not link, or prints nonsense. This script is no part
of ./test. The last line says how many texts and tokens agree; the status is 1 if any text differs.
"""

import os
import pathlib
import random
import re
import resource
import subprocess
import sys
import tempfile

BETWEEN_TEXTS = "\x01"
STEP = re.compile(r"\b(_R\w*11rustc_lexer\w*6Cursor13advance_token)$", re.MULTILINE)

# The types of the compiler's lexer that its step takes and gives.
ORACLE = r"""
use std::io::{Read, Write};
use std::str::Chars;

#[allow(dead_code)]
enum FrontmatterAllowed { Yes, No }

#[allow(dead_code)]
struct Cursor<'a> { len_remaining: usize, chars: Chars<'a>, frontmatter_allowed: FrontmatterAllowed }

#[derive(Debug)]
#[allow(dead_code)]
enum DocStyle { Outer, Inner }

#[derive(Debug)]
#[allow(dead_code)]
enum Base { Binary = 2, Octal = 8, Decimal = 10, Hexadecimal = 16 }

#[derive(Debug)]
#[allow(dead_code)]
enum LiteralKind {
    Int { base: Base, empty_int: bool },
    Float { base: Base, empty_exponent: bool },
    Char { terminated: bool },
    Byte { terminated: bool },
    Str { terminated: bool },
    ByteStr { terminated: bool },
    CStr { terminated: bool },
    RawStr { n_hashes: Option<u8> },
    RawByteStr { n_hashes: Option<u8> },
    RawCStr { n_hashes: Option<u8> },
}

#[derive(Debug)]
#[allow(dead_code)]
enum TokenKind {
    LineComment { doc_style: Option<DocStyle> },
    BlockComment { doc_style: Option<DocStyle>, terminated: bool },
    Whitespace,
    Frontmatter { has_invalid_preceding_whitespace: bool, invalid_infostring: bool },
    Ident, InvalidIdent, RawIdent, UnknownPrefix, UnknownPrefixLifetime, RawLifetime, GuardedStrPrefix,
    Literal { kind: LiteralKind, suffix_start: u32 },
    Lifetime { starts_with_number: bool },
    Semi, Comma, Dot, OpenParen, CloseParen, OpenBrace, CloseBrace, OpenBracket, CloseBracket, At, Pound, Tilde, Question,
    Colon, Dollar, Eq, Bang, Lt, Gt, Minus, And, Or, Plus, Star, Slash, Caret, Percent, Unknown, Eof,
}

struct Token { kind: TokenKind, len: u32 }

unsafe extern "Rust" {
    #[link_name = "ADVANCE_TOKEN"]
    fn advance_token(cursor: &mut Cursor<'_>) -> Token;
}

fn each(text: &str, mut take: impl FnMut(Token)) {
    let frontmatter_allowed = FrontmatterAllowed::No;
    let mut cursor = Cursor { len_remaining: text.len(), chars: text.chars(), frontmatter_allowed };
    loop {
        let token = unsafe { advance_token(&mut cursor) };
        if let TokenKind::Eof = token.kind {
            return;
        }
        take(token);
    }
}

fn main() {
    let args: Vec<String> = std::env::args().collect();
    let mut text = String::new();
    std::io::stdin().read_to_string(&mut text).unwrap();
    let mut out = std::io::BufWriter::new(std::io::stdout().lock());
    if args[2] == "show" {
        for one in text.split('\u{1}') {
            let mut place = 0u64;
            each(one, |token| {
                writeln!(out, "{place} {} {:?}", token.len, token.kind).unwrap();
                place += u64::from(token.len);
            });
            writeln!(out, "--").unwrap();
        }
        return;
    }
    let mut count = 0u64;
    for _ in 0..args[3].parse::<u32>().unwrap() {
        each(&text, |_| count += 1);
    }
    writeln!(out, "{count}").unwrap();
}
"""

# What texts by chance are made of.
PIECES = """/ * // /* */ /** /*! /// //! ' " \\ # ## r b c br cr r# b' b" c" r" 'r# 0 1 9 0x 0b 0o 0B . .. e E e+ e- _ f32 u8 a abc
( ) { } [ ] ; , : :: = => -> - ! < > & | + % ^ @ ~ ? $ ` 'a 'a' '' '\\'' "a" #" "# "## r##" x xyz# ident fn \\n \\" \\\\""".split()
PIECES += ["\n", " ", "\t", "\r\n", "\0", "\x0b", "\x7f", "é", "ß", "漢", "·", "\u0300", "\u200d", "\u200e", "\u2028", "\x85", "\xa0"]
PIECES += ["😀", "👨\u200d👩", "⚙", "‼", "\ufeff", "\u3000", "\uffff", "𝒜", "ª"]


def compile_oracle(folder):
    """Compiles the program that calls the compiler's lexer."""
    library = next(pathlib.Path(output("rustc", "--print", "sysroot").strip(), "lib").glob("librustc_driver-*.so"))
    step = STEP.search(output("nm", "-D", "--defined-only", str(library)))
    if not step:
        sys.exit(f"{library} exports no step of a lexer")
    source = folder / "oracle.rs"
    source.write_text(ORACLE.replace("ADVANCE_TOKEN", step.group(1)), encoding="utf-8")
    link = [f"-Clink-arg=-Wl,-rpath,{library.parent}", f"-Clink-arg=-l:{library.name}", "-L", str(library.parent)]
    subprocess.run(["rustc", "--edition", "2024", "-O", str(source), "-o", str(folder / "oracle"), *link],
                   check=True, env={**os.environ, "RUSTC_BOOTSTRAP": "1"})
    return str(folder / "oracle")


def output(*command, text=None):
    """What a command writes on being given the text."""
    done = subprocess.run(command, input=text, capture_output=True, check=True, encoding="utf-8", errors="strict")
    return done.stdout


def tokens(program, texts):
    """The lines of tokens of each text."""
    shown = output(program, "tokens", "show", text=BETWEEN_TEXTS.join(texts)).split("--\n")
    if len(shown) != len(texts) + 1:
        sys.exit(f"{program} showed {len(shown) - 1} texts of {len(texts)}")
    return shown[:-1]


def first_difference(ours, theirs):
    """The first line that differs."""
    ours, theirs = ours.splitlines() + ["the end"], theirs.splitlines() + ["the end"]
    return next(f"ours {a!r}, rustc's {b!r}" for a, b in zip(ours, theirs) if a != b)


class Judge:
    """Compares texts, and counts what agrees."""

    def __init__(self, ours, theirs):
        self.ours, self.theirs = ours, theirs
        self.texts = self.tokens = 0
        self.different = []

    def compare(self, names, texts):
        """Compares these texts."""
        for name, text, a, b in zip(names, texts, tokens(self.ours, texts), tokens(self.theirs, texts)):
            if a == b:
                self.texts += 1
                self.tokens += b.count("\n")
            else:
                self.different.append((name, text, first_difference(a, b)))

    def tell(self):
        """Prints what differs, and the counts."""
        for name, _, what in self.different[:20]:
            print(f"FAILED: {name}: {what}")
        print(f"{self.texts} texts agree, of {self.tokens} tokens; {len(self.different)} differ")
        sys.exit(1 if self.different else 0)


def read(path):
    """The text of a file; None if it is no UTF-8, or holds what parts texts."""
    try:
        text = path.read_bytes().decode("utf-8")
    except (UnicodeDecodeError, OSError):
        return None
    return None if BETWEEN_TEXTS in text else text


def files(paths):
    """Each file of Rust under the paths, with its text."""
    for path in paths:
        for file in sorted(pathlib.Path(path).rglob("*.rs")):
            text = read(file) if file.is_file() else None
            if text is None:
                print(f"left out: {file}")
            else:
                yield str(file), text


def compare_files(judge, paths):
    """Compares the files, some megabytes at a time."""
    names, texts, size = [], [], 0
    for name, text in files(paths):
        names.append(name)
        texts.append(text)
        size += len(text)
        if size > 4_000_000:
            judge.compare(names, texts)
            names, texts, size = [], [], 0
    if texts:
        judge.compare(names, texts)


def by_chance(chance):
    """One text."""
    count = chance.choice([1, 2, 3, 4, 5, 6, 8, 12, 20])
    way = chance.random()
    if way < 0.25:
        few = chance.sample(PIECES, chance.randint(2, 4))
        return "".join(chance.choice(few) for _ in range(2 * count))
    if way < 0.35:
        ranges = [(2, 128), (128, 0x3000), (0x3000, 0xD800), (0xE000, 0x110000)]
        return "".join(chr(chance.randrange(*chance.choice(ranges))) for _ in range(count))
    return "".join(chance.choice(PIECES) for _ in range(count))


def compare_chance(judge, count, seed):
    """Compares so many texts made by chance. Texts with a character that differs by itself are counted apart."""
    known = {text[-1] for _, text, _ in judge_characters(judge.ours, judge.theirs).different}
    chance = random.Random(seed)
    while count:
        now = min(count, 100_000)
        texts = [by_chance(chance) for _ in range(now)]
        judge.compare([repr(text) for text in texts], texts)
        count -= now
    others = [it for it in judge.different if not known & set(it[1])]
    print(f"{len(judge.different) - len(others)} texts that differ have one of the {len(known)} characters that differ by themselves")
    judge.different = others


def judge_characters(ours, theirs):
    """Compares each character alone and behind a letter."""
    judge = Judge(ours, theirs)
    every = [chr(c) for c in range(0x110000) if not 0xD800 <= c < 0xE000 and c != 1]
    judge.compare([f"U+{ord(c):04X}" for c in every], every)
    judge.compare([f"a U+{ord(c):04X}" for c in every], ["a" + c for c in every])
    return judge


def tell_characters(judge):
    """Prints runs of the characters that differ."""
    runs = []
    codes = sorted({ord(text[-1]) for _, text, _ in judge.different})
    for code in codes:
        if runs and runs[-1][1] == code - 1:
            runs[-1][1] = code
        else:
            runs.append([code, code])
    print(f"{len(codes)} characters differ, in {len(runs)} runs:", *(f"{a:X}-{b:X}" for a, b in runs))
    judge.tell()


def user_seconds(program, text, rounds):
    """The processor time that a program takes which reads the text's tokens so many times."""
    before = resource.getrusage(resource.RUSAGE_CHILDREN).ru_utime
    output(program, "tokens", "time", str(rounds), text=text)
    return resource.getrusage(resource.RUSAGE_CHILDREN).ru_utime - before


def time_both(ours, theirs, paths):
    """Prints nanoseconds of processor time a byte of both lexers: the least of seven runs, each of five rounds more than another."""
    text = "\n".join(text for _, text in files(paths))
    size = len(text.encode())
    print(f"{size} bytes")
    least = {"syntax_lex": float("inf"), "rustc": float("inf")}
    for _ in range(7):
        for name, program in (("syntax_lex", ours), ("rustc", theirs)):
            seconds = (user_seconds(program, text, 6) - user_seconds(program, text, 1)) / 5
            least[name] = min(least[name], seconds)
    for name, seconds in least.items():
        print(f"{name}: {seconds * 1e9 / size:.2f} ns a byte")


def main():
    """Runs the mode that the arguments name."""
    if len(sys.argv) < 3 or sys.argv[2] not in ("files", "chance", "characters", "time"):
        sys.exit(__doc__)
    ours, mode, rest = sys.argv[1], sys.argv[2], sys.argv[3:]
    with tempfile.TemporaryDirectory() as folder:
        theirs = compile_oracle(pathlib.Path(folder))
        if mode == "time":
            return time_both(ours, theirs, rest)
        if mode == "characters":
            return tell_characters(judge_characters(ours, theirs))
        judge = Judge(ours, theirs)
        if mode == "files":
            compare_files(judge, rest)
        else:
            compare_chance(judge, int(rest[0]), int(rest[1]) if len(rest) > 1 else 1)
        judge.tell()


if __name__ == "__main__":
    main()
