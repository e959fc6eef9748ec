#!/usr/bin/env python3
"""The bytes of trees with each byte changed in turn, and each front of them: changed_bytes.py PROGRAM

`load` takes bytes exactly if they are those of a tree. For three trees each byte is changed to each of eight other
values, and the end is left out from each byte on. The program has to answer as plain_pieces.py does, and what it takes
it has to save as just those bytes. A line is printed for each tree: `ok NAME`, or `FAILED NAME: WHY`.
"""
import subprocess
import sys

from plain_pieces import WrongBytes, piece, tree_of_piece
from plain_trees import Ident, Literal, Punct, Span, Subtree

# Each bit of a byte turned.
CHANGES = [1 << bit for bit in range(8)]


def span(start, length, part=0):
    """A span of one of some parts."""
    return Span(part % 3, part, start, start + length, part // 2)


def leaves():
    """A leaf of each form."""
    yield Ident("plain", span(2, 1), "a")
    yield Punct("alone", span(3, 1), ";")
    yield Ident("raw", span(4, 6, 1), "type")
    yield Punct("hidden", span(10, 1), "+")
    yield Punct("joint", span(11, 3, 2), "→")
    yield Literal("int", 2, span(14, 3), "1u8")
    yield Literal("rstr:2", 0, span(17, 8), "é")
    yield Literal("byte", 0, span(200000, 300, 1), "x")


def trees():
    """The first tree of the guide, one with each form of a leaf, and one with headers of all formats."""
    yield "braces", Subtree("brace", span(0, 1), span(5, 1), (Ident("plain", span(2, 1), "a"), Punct("alone", span(3, 1), ";")))
    yield "leaves", Subtree("invisible", span(0, 0), span(0, 0, 4), tuple(leaves()))
    one = Subtree("paren", span(0, 1), span(300, 1), (Ident("plain", span(2, 1), "a"),))
    two = Subtree("brace", span(5, 4), span(5, 4), (one, Punct("joint", span(7, 1), "<")))
    three = Subtree("bracket", span(10, 1), span(20, 1, 3), (two,))
    four = Subtree("opaque", span(0, 1), span(1, 1), (three, Subtree("paren", span(5, 1), span(0, 1), ())))
    yield "headers", Subtree("paren", span(0, 1), span(2, 1), (four,))


def changed(data):
    """The bytes, each of them changed in turn, and each front."""
    yield data
    for place, byte in enumerate(data):
        yield data[:place]
        for change in CHANGES:
            yield data[:place] + bytes([byte ^ change]) + data[place + 1:]
    yield data + b"\0"


def answers(data):
    """What is answered to `load`, and to `save` behind it."""
    try:
        return ["ok", piece(tree_of_piece(data)).hex()]
    except WrongBytes as wrong:
        return ["bytes {} {}".format(*wrong.args), "empty"]


def difference(program, data):
    """Where the program answers something else, or nothing."""
    script, expected, slots = [], [], 0
    for one in changed(data):
        # a slot that holds no tree yet, or one of its own
        empty = "ok" not in answers(one)
        slot = 15 if empty else slots % 15
        slots += 0 if empty else 1
        script += [f"load {slot} {one.hex()}", f"save {slot}"]
        expected += answers(one)
    done = subprocess.run([program], input="\n".join(script) + "\n", capture_output=True, text=True, timeout=120, check=False)
    found = done.stdout.split("\n")[:-1]
    for line, wanted, given in zip(script, expected, found):
        if wanted != given:
            return f"{line[:400]}: {given[:80]} in place of {wanted[:80]}"
    if len(found) != len(expected) or done.returncode != 0:
        return f"{len(found)} answers and status {done.returncode}"
    return None


def main():
    """Tries the bytes of each tree."""
    program, failed = sys.argv[1], False
    for name, tree in trees():
        why = difference(program, piece(tree))
        failed |= why is not None
        print(f"FAILED changed bytes of {name}: {why}" if why else f"ok changed bytes of {name}")
    sys.exit(failed)


if __name__ == "__main__":
    main()
