#!/usr/bin/env python3
"""The program `cuvolemin` over files: files.py PROGRAM

It tries each command on each file of examples/rust, and on files, pipes and arguments that it makes. The expected output is a
file beside the example, or follows from how the text was made. It prints a line for each trial, `ok NAME` or
`FAILED NAME: WHY`; the status is 1 if one failed.
"""
import pathlib
import re
import resource
import subprocess
import sys
import tempfile

import changed_files
import macro_files
from program_files import SECONDS, Files, Wrong, wants

EXAMPLES = pathlib.Path(__file__).resolve().parent.parent / "examples" / "rust"
DEPTH = 100_000
# The tree's lines are indented by all levels above them.
TREE_DEPTH = 1_000
WORDS = 100_000


def without_spans(lines):
    """The lines of a tree without the places in it."""
    return re.sub(rb" \d+:\d+\.\.\d+:\d+", b"", lines)


# ---- the examples

def try_tokens(files, example):
    """Its tokens are those in the file beside it, from a file and from standard input."""
    expected = example.with_suffix(".tokens").read_bytes()
    files.gives(expected, "tokens", str(example))
    files.gives(expected, "tokens", "-", given=example.read_bytes())
    files.gives(expected, "tokens", given=example.read_bytes())


def try_tree(files, example):
    """Compares its tree with the file beside it."""
    expected = example.with_suffix(".tree").read_bytes()
    files.gives(expected, "tree", str(example))
    files.gives(expected, "tree", "-", given=example.read_bytes())
    files.gives(expected, "tree", given=example.read_bytes())


def try_pieces(files, example):
    """Packs it, unpacks it, and compares the text with the file beside it, and the tree of that text."""
    piece = str(files.room / "piece")
    pathlib.Path(piece).unlink(missing_ok=True)
    files.gives(b"", "pack", str(example), "-o", piece)
    expected = example.with_suffix(".text").read_bytes()
    files.gives(expected, "unpack", piece)
    files.gives(expected, "unpack", "-", given=pathlib.Path(piece).read_bytes())
    status, again, told = files.run("tree", given=expected)
    wants("what comes back", (status, told), (0, b""))
    wants("the tree of it", without_spans(again), without_spans(example.with_suffix(".tree").read_bytes()))


def try_fault(files, example):
    """Compares the diagnostic with the file beside it; `pack` writes nothing."""
    told = example.with_suffix(".err").read_text(encoding="utf-8")
    files.tells(told.replace("FILE", str(example)), "tree", str(example))
    files.tells(told.replace("FILE", "<stdin>"), "tree", given=example.read_bytes())
    out = files.made("kept", b"kept")
    files.tells(told.replace("FILE", str(example)), "pack", str(example), "-o", out)
    wants("the file", pathlib.Path(out).read_bytes(), b"kept")


# ---- other files

def try_missing(files):
    """A file that is not there, and one that cannot be written."""
    for command in ("tokens", "tree", "unpack"):
        files.tells("error: couldn't read /no/file: No such file or directory (os error 2)\n", command, "/no/file")
    files.tells("error: couldn't read /no/file: No such file or directory (os error 2)\n", "pack", "/no/file", "-o", "/no/out")
    files.tells("error: couldn't write /no/out: No such file or directory (os error 2)\n", "pack", "-", "-o", "/no/out")


def try_folder(files):
    """A folder in place of a file."""
    for command in ("tokens", "tree", "unpack"):
        files.tells("error: couldn't read /: Is a directory (os error 21)\n", command, "/")


def try_unreadable(files):
    """A file that may not be read: one of another process's memory, of which even an administrator reads nothing at 0."""
    status, written, told = files.run("tokens", "/proc/self/mem")
    wants("the run", (status, written), (1, b""))
    if not told.startswith(b"error: couldn't read /proc/self/mem: "):
        raise Wrong(f"the diagnostic is: {told[:200]}")


def try_empty(files):
    """An empty file has no token and an empty tree."""
    empty = files.made("empty", b"")
    piece = str(files.room / "piece")
    files.gives(b"", "tokens", empty)
    files.gives(b"", "tree", empty)
    files.gives(b"", "pack", empty, "-o", piece)
    files.gives(b"", "unpack", piece)


def try_no_utf8(files):
    """Bytes that are not UTF-8: the diagnostic has the place of the first."""
    for bytes_, at in ((b"fn \xff", 3), ("é".encode() + b"\xe6\x97", 2), (b"\x80", 0), (b"\xef\xbb\xbf\xff", 3)):
        name = files.made("bytes", bytes_)
        for words in (("tokens", name), ("tree", name), ("pack", name, "-o", "/no/out")):
            files.tells(f"error: {name} is not UTF-8 at byte {at}\n", *words)


def try_mark(files):
    """A byte order mark in front is no part of the text; a second one is no token of Rust."""
    files.gives(b'0..1 Ident "a"\n', "tokens", files.made("mark", b"\xef\xbb\xbfa"))
    files.gives(b"IDENT   a 1:1..1:2\n", "tree", files.made("mark", b"\xef\xbb\xbfa"))
    files.gives(b"", "tree", files.made("mark", b"\xef\xbb\xbf"))
    twice = files.made("mark", b"\xef\xbb\xbf\xef\xbb\xbf)")
    status, _, told = files.run("tree", twice)
    wants("the status", status, 1)
    wants("the diagnostic", told.split(b"\n")[:2], [b"error: unknown character", f" --> {twice}:1:1".encode()])


def try_faults(files):
    """Diagnostics of faults, with their marks: at the end, behind tabs, behind characters that are wide or have no width. NUL is not shown."""
    for text, line, column, mark, message in (
        ("a ]", 1, 3, "  ^", "unopened ']'"),
        ("'", 1, 1, "^", "unterminated literal"),
        ("x \"", 1, 3, "  ^", "unterminated literal"),
        ("\n\n/* é", 3, 1, "^", "unterminated comment"),
        ("漢\t字 (", 1, 5, "  \t   ^", "unclosed '('"),
        ("e\u0301 \u0000", 1, 4, "  ^", "unknown character"),
        ("a\r\nb {\r\n", 2, 3, "  ^", "unclosed '{'"),
        ("a\n(\n\n", 2, 1, "^", "unclosed '('"),
        ("0b", 1, 1, "^", "number with no digits"),
    ):
        shown = text.replace("\r\n", "\n").split("\n")[line - 1].replace("\0", "\ufffd")
        files.tells(
            f"error: {message}\n --> <stdin>:{line}:{column}\n  |\n{line} | {shown}\n  | {mark}\n", "tree", given=text.encode()
        )


def try_bad_pieces(files):
    """Bytes that are no tree's."""
    for bytes_, what in ((b"", "too short at 0"), (b"fn main() {}", "another format at 0")):
        name = files.made("bytes", bytes_)
        files.tells(f"error: {name}: {what}\n", "unpack", name)
    piece = str(files.room / "piece")
    files.gives(b"", "pack", "-", "-o", piece, given=b"fn main() {}")
    whole = pathlib.Path(piece).read_bytes()
    for end in range(len(whole)):
        status, written, told = files.run("unpack", "-", given=whole[:end])
        wants("a piece that was cut", (status, written), (1, b""))
        if not told.startswith(b"error: <stdin>: ") or told.count(b"\n") != 1:
            raise Wrong(f"the diagnostic of a piece that was cut is: {told[:200]}")


# ---- arguments and pipes

def try_help(files):
    """`--help` of the program names each command, and that of a command its usage."""
    status, written, told = files.run("--help")
    wants("the run", (status, told), (0, b""))
    for word in (b"Usage: cuvolemin", b"expand", b"check", b"tokens", b"tree", b"unpack", b"--version"):
        if word not in written:
            raise Wrong(f"--help does not name {word}")
    for command in ("expand", "check", "tokens", "tree", "pack", "unpack"):
        status, written, told = files.run(command, "--help")
        wants("the run", (status, told), (0, b""))
        if f"Usage: cuvolemin {command}".encode() not in written:
            raise Wrong(f"--help of {command} does not print its usage")


def try_version(files):
    """`--version` is one line."""
    files.gives(b"cuvolemin 0.1.0\n", "--version")


def try_mistakes(files):
    """Arguments that name no command, no option or no value."""
    files.mistake()
    files.mistake("frobnicate")
    files.mistake("tokens", "--no-such")
    files.mistake("tree", "a", "b")
    files.mistake("expand", "--write", "--diff", "a")
    files.mistake("check")
    files.mistake("check", "--one-line", "a")
    files.mistake("pack", "-")
    files.mistake("pack", "-o", "/no/out")
    files.mistake("unpack")


def try_closed_pipe(files):
    """A reader that closes the pipe has read enough: the program prints no diagnostic."""
    first, told = files.reads_some("tokens", given=b"a " * WORDS)
    wants("the first line", first.split(b"\n")[0], b'0..1 Ident "a"')
    wants("the diagnostic", told, b"")
    first, told = files.reads_some("tree", given=b"(" * DEPTH + b")" * DEPTH)
    wants("the first line", first.split(b"\n")[0], f"SUBTREE () 1:1..1:2 1:{2 * DEPTH}..1:{2 * DEPTH + 1}".encode())
    wants("the diagnostic", told, b"")


# ---- long and deep texts

def try_deep(files):
    """Nested brackets: their tokens, their piece, and the diagnostic if one is left open."""
    text = b"(" * DEPTH + b")" * DEPTH
    name = files.made("deep", text)
    opens = "".join(f'{at}..{at + 1} OpenParen "("\n' for at in range(DEPTH))
    closes = "".join(f'{at}..{at + 1} CloseParen ")"\n' for at in range(DEPTH, 2 * DEPTH))
    files.gives((opens + closes).encode(), "tokens", name)
    piece = str(files.room / "piece")
    files.gives(b"", "pack", name, "-o", piece)
    files.gives(text + b"\n", "unpack", piece)
    line = "(" * DEPTH + ")" * (DEPTH - 1)
    files.tells(
        f"error: unclosed '('\n --> <stdin>:1:1\n  |\n1 | {line[:160]}..\n  | ^\n", "tree", given=line.encode()
    )


def try_deep_tree(files):
    """The tree of such a text."""
    lines = "".join(
        f"{'  ' * at}SUBTREE () 1:{at + 1}..1:{at + 2} 1:{2 * TREE_DEPTH - at}..1:{2 * TREE_DEPTH - at + 1}\n"
        for at in range(TREE_DEPTH)
    )
    files.gives(lines.encode(), "tree", given=b"(" * TREE_DEPTH + b")" * TREE_DEPTH)


def try_doublings(files):
    """A macro that doubles its input: twenty expansions write 2,097,210 tokens, and one more would pass the limit."""
    line = "macro_rules! d { ($($t:tt)*) => { d!($($t)* $($t)*) }; } d!(a);"

    def place(at):
        return f" --> <stdin>:1:{at + 1}\n  |\n1 | {line}\n  | {' ' * at}^\n"

    def call(at):
        return f"note: in this call of `d`\n{place(at)}"

    inner, outer = line.index("d!("), line.rindex("d!(")
    files.tells(
        f"error: too many tokens are written while expanding `d`\n{place(inner)}"
        "  = note: the limit is 4000000 tokens for a call and the calls in its result; --max-tokens N sets another one\n"
        "  = note: 12 calls between the last two are not shown\n"
        f"note: `d` is defined here\n{place(line.index('d {'))}{call(inner) * 7}{call(outer)}\nerror: found 1 error\n",
        "expand", given=line.encode(),
    )


def try_product(files):
    """A rule that would write 10,000 times 40,000 tokens writes none past the limit, in a gigabyte of memory."""
    rules = "macro_rules! m {\n    ($($a:tt)*) => { " + "$($a)* " * 10_000 + "};\n}\n"
    text = rules + "m!(" + "x " * 40_000 + ");\n"
    done = subprocess.run([files.program, "check", "-"], input=text.encode(), capture_output=True, timeout=SECONDS, check=False,
                          preexec_fn=lambda: resource.setrlimit(resource.RLIMIT_AS, (1 << 30, 1 << 30)))
    told = (
        f"error: too many tokens are written while expanding `m`\n --> <stdin>:4:1\n  |\n4 | m!({'x ' * 78}x..\n  | ^\n"
        "  = note: the limit is 4000000 tokens for a call and the calls in its result; --max-tokens N sets another one\n"
        "note: `m` is defined here\n --> <stdin>:1:14\n  |\n1 | macro_rules! m {\n  |              ^\n\nerror: found 1 error\n"
    )
    wants("the run", (done.returncode, done.stdout, done.stderr), (1, b"", told.encode()))


def try_long(files):
    """Many tokens in one line, and in as many lines."""
    lines = "".join(f"IDENT   é {1}:{2 * at + 1}..1:{2 * at + 2}\n" for at in range(WORDS))
    files.gives(lines.encode(), "tree", given="é ".encode() * WORDS)
    lines = "".join(f"IDENT   é {at + 1}:1..{at + 1}:2\n" for at in range(WORDS))
    files.gives(lines.encode(), "tree", given="é\n".encode() * WORDS)


# The trials of an example, by the ending of a file beside it.
OF_EXAMPLES = (
    (".tokens", "tokens", try_tokens),
    (".err", "fault", try_fault),
    (".tree", "tree", try_tree),
    (".text", "piece", try_pieces),
)


def tried_examples(files):
    """The trials of each example, by name. Each file belongs to a text, and each text has a trial."""
    for example in sorted(EXAMPLES.glob("*.rs")):
        of_it = [
            (f"{what} of {example.name}", lambda example=example, try_one=try_one: try_one(files, example))
            for ending, what, try_one in OF_EXAMPLES
            if example.with_suffix(ending).exists()
        ]
        of_it += macro_files.tried_example(files, example)
        if not of_it:
            raise Wrong(f"nothing is tried of {example.name}")
        yield from of_it


def tried(files):
    """Each thing that is tried, by its name."""
    yield from tried_examples(files)
    yield from macro_files.tried(files, EXAMPLES)
    yield from changed_files.tried(files, EXAMPLES)
    for try_one in (
        try_missing, try_folder, try_unreadable, try_empty, try_no_utf8, try_mark, try_faults, try_bad_pieces, try_help, try_version, try_mistakes, try_closed_pipe, try_deep, try_deep_tree,
        try_doublings, try_product, try_long,
    ):
        yield try_one.__name__.removeprefix("try_").replace("_", " "), lambda try_one=try_one: try_one(files)


def main():
    """Tries all, and says of each how it went."""
    failed = False
    with tempfile.TemporaryDirectory() as room:
        for name, run in tried(Files(sys.argv[1], room)):
            try:
                run()
                print(f"ok {name}", flush=True)
            except (Wrong, OSError, subprocess.TimeoutExpired) as why:
                failed = True
                line = str(why).replace("\n", " ")
                print(f"FAILED {name}: {line}", flush=True)
    return int(failed)


if __name__ == "__main__":
    sys.exit(main())
