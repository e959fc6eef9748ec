#!/usr/bin/env python3
"""The rows of syntax_rows.txt beside rustc: compare_syntax.py

rustc 1.95 or later reads each text as a file of edition 2024, without looking further than its syntax. It must take and refuse the same
texts as the rows say, and report its first error at the place of the row, or at the one that the row has for it. It prints each row that
differs, and at last how many agree; the status is 1 if one differs. No part of ./test: it needs rustc.
"""
import json
import os
import pathlib
import subprocess
import sys
import tempfile
from concurrent.futures import ThreadPoolExecutor

from syntax import RUNS, read_rows

COMPILER = ("rustc", "--edition", "2024", "-Zparse-crate-root-only", "--crate-type", "lib", "--error-format=json")


def places_of_errors(path):
    """Where the compiler reports errors in a file."""
    done = subprocess.run(
        [*COMPILER, path], capture_output=True, text=True, check=False, env={**os.environ, "RUSTC_BOOTSTRAP": "1"})
    for line in done.stderr.splitlines():
        told = json.loads(line)
        if told["level"] == "error":
            yield from (f"{span['line_start']}:{span['column_start']}" for span in told["spans"] if span["is_primary"])


def difference(row, room):
    """What the compiler does with a row in place of what the row says; none if that is the same."""
    path = pathlib.Path(room) / f"row{row.line}.rs"
    path.write_bytes(row.text.encode())
    found = next(places_of_errors(str(path)), None)
    if (found is None) != (row.verdict != "refuses"):
        return "rustc takes it" if found is None else f"rustc refuses it at {found}"
    return None if found == (row.other or row.place) else f"rustc refuses it at {found}"


def main():
    """Compares all rows."""
    rows = read_rows()
    with tempfile.TemporaryDirectory() as room, ThreadPoolExecutor(RUNS) as runs:
        differences = list(runs.map(lambda row: difference(row, room), rows))
    for row, why in zip(rows, differences):
        if why:
            print(f"{row}: {row.text!r}: {why}")
    wrong = sum(why is not None for why in differences)
    print(f"{len(rows) - wrong} rows agree, {wrong} differ")
    return int(wrong > 0)


if __name__ == "__main__":
    sys.exit(main())
