#!/usr/bin/env python3
"""How `cuvolemin expand` lays out what calls become: layout.py PROGRAM

Beside each text of examples/rust/layout is what `expand` must write for it, NAME.out, worked out by hand and compared byte for byte. The texts
of examples/rust are tried too: by NAME.out, or by NAME.expanded if one line is all that a call of them becomes. With --one-line each text must
come with the same tokens, as plain_text.py reads them. The same is tried for a template of 500 lines. It prints a line for each trial, `ok NAME` or
`FAILED NAME: WHY`; the status is 1 if one failed.
"""
import pathlib
import subprocess
import sys
import tempfile

import plain_text
import plain_written
from program_files import Files, Wrong, wants

EXAMPLES = pathlib.Path(__file__).resolve().parent.parent / "examples" / "rust"
ROWS = EXAMPLES / "layout"
MARK = "\ufeff"
STEPS = 125


def tokens(text):
    """The tokens of a text, which white space and comments do not change."""
    return plain_written.written(plain_text.tree_of_text(text.decode().removeprefix(MARK)).children)


def expected(text):
    """What must be written for a text; None if it has an error, or no macros."""
    for ending in (".out", ".expanded"):
        if text.with_suffix(ending).exists():
            return text.with_suffix(ending).read_bytes()
    return None


def long_template():
    """A text with a call of a template of 500 lines, and what must be written for it: these lines, as far indented as the call."""
    lines = ["pub fn $name(it: &mut It) {"]
    for number in range(STEPS):
        lines += [f"    if it.has({number}) {{", f"        it.set({number}, $name); // number {number}", "    }", ""]
    lines[-1] = "}"
    template = "\n".join(f"        {line}".rstrip() for line in lines)
    result = "\n".join(f"    {line}".rstrip() for line in lines).replace("$name", "each")
    definition = f"macro_rules! long {{\n    ($name:ident) => {{\n{template}\n    }};\n}}\n\nmod inner {{\n"
    return f"{definition}    long!(each);\n}}\n".encode(), f"{definition}{result}\n}}\n".encode()


def try_text(files, text, written):
    """What is written of it, from a file and from standard input, and its tokens on one line."""
    files.gives(written, "expand", str(text))
    files.gives(written, "expand", "-", given=text.read_bytes())
    status, line, told = files.run("expand", "--one-line", str(text))
    wants("the run with --one-line", (status, told), (0, b""))
    wants("its tokens", tokens(line), tokens(written))


def tried():
    """Each text, and what must be written for it. Each file of the folder belongs to a row."""
    names = {path.stem for path in ROWS.iterdir()}
    files = {path.name for path in ROWS.iterdir()}
    if files != {f"{name}{ending}" for name in names for ending in (".rs", ".out")}:
        raise Wrong("a file of examples/rust/layout belongs to no row")
    for text in [*sorted(ROWS.glob("*.rs")), *sorted(EXAMPLES.glob("*.rs"))]:
        if (written := expected(text)) is not None:
            yield text, written


def main():
    """Tries all, and says of each how it went."""
    failed = False
    with tempfile.TemporaryDirectory() as room:
        files = Files(sys.argv[1], room)
        text, written = long_template()
        long = pathlib.Path(files.made("a template of 500 lines", text))
        for text, written in [*tried(), (long, written)]:
            name = f"layout of {text.relative_to(EXAMPLES) if text != long else text.name}"
            try:
                try_text(files, text, written)
                print(f"ok {name}", flush=True)
            except (Wrong, OSError, plain_text.WrongText, subprocess.TimeoutExpired) as why:
                failed = True
                print(f"FAILED {name}: {str(why)}".replace("\n", " "), flush=True)
    return int(failed)


if __name__ == "__main__":
    sys.exit(main())
