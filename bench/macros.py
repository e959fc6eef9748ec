#!/usr/bin/env python3
"""The arms of a macro and an input for bench_texts: macros.py KIND N

KIND is `pairs` (N pairs between commas, in one repetition), `tail` (a word, and N trees that a last repetition takes), `nested`
(N words, in lists of five in lists of four in a list), or `many` (1,000 words, in N repetitions of any trees one behind the
other, each with a word of its own behind it).
"""
import sys


def pairs(n):
    return "($($k:ident => $v:tt),* $(,)?) => { $(let $k = $v;)* };", ", ".join("a => 1" for _ in range(n))


def tail(n):
    return "(a $($rest:tt)*) => { $($rest)* };", "a " + " ".join(("b", "c", "(d)", "1")[i % 4] for i in range(n))


def nested(n):
    lists = "; ".join(", ".join("a" for _ in range(5)) for _ in range(4))
    return "($($($($x:ident),+);+)|+) => { $([$($($x)*),*])* };", " | ".join(lists for _ in range(n // 20))


def many(n):
    pattern = " ".join(f"$($x{i}:tt)* e{i}" for i in range(n))
    return f"({pattern}) => {{ $($x0)* }};", " ".join(["a"] * 1000 + [f"e{i}" for i in range(n)])


KINDS = {"pairs": pairs, "tail": tail, "nested": nested, "many": many}


def main():
    if len(sys.argv) != 3 or sys.argv[1] not in KINDS:
        sys.exit(__doc__)
    arms, given = KINDS[sys.argv[1]](int(sys.argv[2]))
    sys.stdout.write(arms + "\x01" + given)


main()
