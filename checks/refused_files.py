#!/usr/bin/env python3
"""Each request for memory of a run over a file refused in turn: refused_files.py PROGRAM LIBRARY

PROGRAM is `cuvolemin`, and LIBRARY is checks/refuse.c. The first, second, .. request of a run of `expand` is refused, until it
makes no more of them; one text is also tried with `--one-line`. Each run ends: either as with ample memory, or with status 1, or
2 while the words of the command line are read, nothing written, and a last message that says that memory ran out. One message of each
text names the file, and one the place of a call if the text has a tree. A line is printed for each text, `ok NAME` or
`FAILED NAME: WHY`; the status is 1 if one failed.
"""
import os
import pathlib
import subprocess
import sys
import tempfile

EXAMPLES = pathlib.Path(__file__).resolve().parent.parent / "examples" / "rust"
# One that is written, one with warnings, one with errors, one with no tree.
NAMES = ("nested", "squared", "faults", "mismatched")
# The texts, each with options.
RUNS = (("nested", ("--one-line",)), *((name, ()) for name in NAMES))
SECONDS = 60
# The diagnostics of a run that ran out of memory: the program's, or the system's if it finds no room for the arguments.
WANTING = (b"out of memory", b"Cannot allocate memory", b"memory allocation failed")


class Wrong(Exception):
    """What a run did, and should not have."""


def run(program, name, options, **environment):
    """The status of a run, what it wrote, and its diagnostics."""
    done = subprocess.run(
        [program, "expand", *options, str(EXAMPLES / f"{name}.rs")],
        stdin=subprocess.DEVNULL, capture_output=True, timeout=SECONDS, check=False, env={**os.environ, **environment},
    )
    return done.returncode, done.stdout, done.stderr


def expected(name, options):
    """What a run over an example has to be with enough memory: what the files beside it have."""
    path = EXAMPLES / f"{name}.rs"
    is_right = path.with_suffix(".expanded").exists()
    ending = ".out" if path.with_suffix(".out").exists() and not options else ".expanded"
    written = path.with_suffix(ending).read_bytes() if is_right else b""
    told = path.with_suffix(".messages").read_bytes() if path.with_suffix(".messages").exists() else b""
    return int(not is_right), written, told.replace(b"FILE", str(path).encode())


def names_call(told, name):
    """Whether diagnostics say in which call of an example memory ran out: its line is shown, with the mark under the beginning of a call."""
    lines = told.decode().splitlines()
    for at, line in enumerate(lines):
        if line == "error: out of memory in this call":
            shown, mark = lines[at + 3].partition("|")[2], lines[at + 4].partition("|")[2]
            return f"{EXAMPLES / name}.rs:" in lines[at + 1] and "!" in shown[mark.index("^"):]
    return False


def is_refused_well(ended, ample):
    """Whether a run of which a request was refused ends as it has to."""
    status, written, told = ended
    if ended == ample:
        return True
    return status in (1, 2) and written == b"" and any(words in told for words in WANTING)


def try_each(program, library, name, options):
    """Has each request refused in turn, and finds a run that does not end well."""
    ample = expected(name, options)
    with tempfile.TemporaryDirectory() as room:
        refused = pathlib.Path(room) / "refused"
        named, placed = False, name == "mismatched"
        for nth in range(1, sys.maxsize):
            ended = run(program, name, options, REFUSE=str(nth), REFUSED=str(refused), LD_PRELOAD=library)
            if not refused.exists():
                break
            refused.unlink()
            if not is_refused_well(ended, ample):
                raise Wrong(f"request {nth} refused: {str(ended)[:300]}")
            named = named or f"error: {EXAMPLES / name}.rs: out of memory".encode() in ended[2]
            placed = placed or names_call(ended[2], name)
        if ended != ample or nth == 1:
            raise Wrong(f"with none of {nth - 1} requests refused: {str(ended)[:300]}")
        if not named:
            raise Wrong("no diagnostic names the file")
        if not placed:
            raise Wrong("no diagnostic names the call")


def main():
    """Tries all, and says of each how it went."""
    failed = False
    for name, options in RUNS:
        trial = " ".join((f"memory refused over {name}.rs", *options))
        try:
            try_each(*sys.argv[1:], name, options)
            print(f"ok {trial}", flush=True)
        except (Wrong, OSError, subprocess.TimeoutExpired) as why:
            failed = True
            print(f"FAILED {trial}: {why}", flush=True)
    return int(failed)


if __name__ == "__main__":
    sys.exit(main())
