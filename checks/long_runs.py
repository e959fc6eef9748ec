#!/usr/bin/env python3
"""Long runs of the program, judged by counts and sums: long_runs.py PROGRAM

Each run is a script that is made here, and what it must answer is worked out here too, from how the script was made:
no answers are stored. A line is printed for each run, `ok NAME` or `FAILED NAME: WHY`; the status is 1 if one failed.
"""
import subprocess
import sys

TOKENS = 200_000
DEPTH = 10_000
DEEPEST = 200_000
# Debug writes as many spaces as all levels together.
DEBUG_DEPTH = 1_000
LEAVES = 100
REPLACEMENT = 1_000
SLOTS = 16
COUNTED_STEPS = 1_500
# The builder of that run uses more parts and more symbols at some time: room is made for 18 of each at first, and then for
# so many.
COUNTED_VALUES = 288
LONG_TEXT = 70_000
NAMES = 100_000
BUILT_TOKENS = 600_000
RULE_LEVELS = 200
POINTS = 1_000
BRACKETS = 1_000_000
OPTIONS = 1_500
# A span of zeros.
ZERO = "0:0@0..0#0"


class Wrong(Exception):
    """What a run answered, and should not have."""


def wants(what, found, expected):
    """Refuses a value that is not the expected one."""
    if found != expected:
        raise Wrong(f"{what}: {str(found)[:80]} in place of {str(expected)[:80]}")


def span_at(start):
    """A span of one byte, one of ten parts."""
    return f"0:{start % 10}@{start}..{start + 1}#0"


def leaf_at(place):
    """The leaf at a place of the long list: idents, puncts and literals in turn."""
    span = span_at(place)
    return (f"ident plain {span} a{place % 1000}", f"punct alone {span} ,", f"lit int 2 {span} 1u8")[place % 3]


def answers_of(program, commands):
    """What the program answers to the commands, line by line."""
    script = "".join(command + "\n" for command in commands)
    done = subprocess.run([program], input=script, capture_output=True, text=True, timeout=120, check=False)
    wants("the status", done.returncode, 0)
    return done.stdout.split("\n")[:-1]


def until_end(answers):
    """The lines of one answer, up to its line `end`."""
    lines = []
    for line in answers:
        if line == "end":
            return lines
        lines.append(line)
    raise Wrong("an answer without its end")


def starts_of(lines):
    """The sum of the starts of the first span in each line."""
    return sum(int(line.split("@")[1].split("..")[0]) for line in lines)


def long_list(program):
    """A tree of many tokens through every command that takes one."""
    leaves = [leaf_at(place) for place in range(1, TOKENS)]
    items = [f"item sub brace {ZERO} {ZERO} {TOKENS - 1}"] + ["item " + leaf for leaf in leaves]
    commands = items + [
        "list 0", "copy 1 0", "equal 0 1", f"new invisible {ZERO} {ZERO}", "append 0", "alone 0", "build 2", "flat 2",
        f"set 1 {TOKENS // 2} punct alone {ZERO} ;", "equal 0 1", "ids 1 7 7", "rewrite 0 keep remove", "split 0 ,",
        "flat 0", "siblings 0", "walk 0", "debug 0", "parts 0", "symbols 0", "bytes 0", "show 0", "pretty 0", "glue 0",
    ]
    answers = iter(answers_of(program, commands))
    wants("items", [next(answers) for _ in items], ["ok"] * len(items))
    wants("list to build", [next(answers) for _ in range(7)], ["ok", "ok", "yes", "ok", "ok", "ok", "ok"])
    twice = until_end(answers)
    wants("tokens appended twice", len(twice), 2 * TOKENS + 1)
    wants("their starts", starts_of(twice), 2 * sum(range(1, TOKENS)))
    wants("set to rewrite", [next(answers) for _ in range(4)], ["ok", "no", "ok", "ok"])
    # The first leaf is gone, a comma: those left are one in three.
    left = leaves[1:]
    commas = sum(leaf.startswith("punct") for leaf in left)
    pieces = [int(size) for size in next(answers).split(" ")[1:]]
    wants("pieces", len(pieces), commas + 1)
    wants("tokens in pieces", sum(pieces), len(left) - commas)
    flat = until_end(answers)
    wants("flat", flat, [f"sub brace {ZERO} {ZERO} {len(left)}"] + left)
    wants("siblings", until_end(answers), left)
    wants("walk", until_end(answers), flat + ["close"])
    wants("lines of debug", len(until_end(answers)), len(flat))
    wants("parts", len(until_end(answers)), 10 + 2)
    wants("symbols", len(until_end(answers)), len({leaf.split(" ")[-1] for leaf in left if not leaf.startswith("punct")}))
    stored = len(next(answers)) // 2
    if not 33 + 5 * len(left) <= stored <= 33 * len(flat):
        raise Wrong(f"{stored} bytes of {len(flat)} tokens")
    words = "{" + " ".join(leaf.split(" ")[-1] for leaf in left) + "}"
    wants("show", next(answers), words)
    wants("pretty", next(answers), words)
    wants("glue", next(answers), "glue" + "".join(" 1" if leaf.startswith("punct") else " x" for leaf in left))


def deep_nest(program):
    """A nest that is opened and closed, walked and rewritten."""
    commands = [f"new invisible {ZERO} {ZERO}"] + [f"open paren {ZERO}"] * DEPTH + [f"close {ZERO}"] * DEPTH
    commands += ["build 0", "copy 1 0", "rewrite 0" + " keep" * DEPTH, "equal 0 1", "walk 0"]
    answers = iter(answers_of(program, commands))
    wants("builder", [next(answers) for _ in range(2 * DEPTH + 1)], ["ok"] * (2 * DEPTH + 1))
    wants("build to equal", [next(answers) for _ in range(4)], ["ok", "ok", "ok", "yes"])
    wants("walk", until_end(answers), [f"sub invisible {ZERO} {ZERO} {DEPTH}"] + nest(DEPTH) + ["close"] * (DEPTH + 1))


def nest(depth):
    """Parentheses in one another, without the word `item`."""
    return [f"sub paren {ZERO} {ZERO} {len_below}" for len_below in range(depth - 1, -1, -1)]


def deepest_nest(program):
    """A nest as a list, through each command that shows a tree."""
    heads = nest(DEEPEST)
    commands = ["item " + head for head in heads]
    commands += ["list 0", "copy 1 0", "equal 0 1", "flat 0", "siblings 0", "walk 0", "show 0", "pretty 0", "glue 0"]
    answers = iter(answers_of(program, commands))
    wants("items to equal", [next(answers) for _ in range(DEEPEST + 3)], ["ok"] * (DEEPEST + 2) + ["yes"])
    wants("flat", until_end(answers), heads)
    wants("siblings", until_end(answers), heads[1:])
    wants("walk", until_end(answers), heads + ["close"] * DEEPEST)
    wants("show", next(answers), "(" * DEEPEST + ")" * DEEPEST)
    wants("pretty", next(answers), "(" * DEEPEST + ")" * DEEPEST)
    wants("glue", next(answers), "glue x")


def debug_of_a_nest(program):
    """A line for each level, each further to the right."""
    commands = ["item " + head for head in nest(DEBUG_DEPTH)] + ["list 0", "debug 0"]
    answers = iter(answers_of(program, commands))
    wants("items", [next(answers) for _ in range(DEBUG_DEPTH + 1)], ["ok"] * (DEBUG_DEPTH + 1))
    wants("debug", until_end(answers), [f"{'  ' * level}SUBTREE () {ZERO} {ZERO}" for level in range(DEBUG_DEPTH)])


def replaced_leaves(program):
    """Each leaf of a tree replaced by many tokens."""
    comma = f"punct alone {ZERO} ,"
    plus = f"punct alone {ZERO} +"
    put = [f"sub paren {ZERO} {ZERO} {REPLACEMENT - 1}"] + [plus] * (REPLACEMENT - 1)
    commands = [f"item sub brace {ZERO} {ZERO} {LEAVES}"] + [f"item {comma}"] * LEAVES + ["list 0"]
    commands += ["item " + token for token in put] + ["list 1", "rewrite 0 keep" + " put:1" * LEAVES, "flat 0"]
    answers = iter(answers_of(program, commands))
    wants("rewriting", [next(answers) for _ in commands[:-1]], ["ok"] * (len(commands) - 1))
    wants("flat", until_end(answers), [f"sub brace {ZERO} {ZERO} {LEAVES * REPLACEMENT}"] + put * LEAVES)


def long_line(program):
    """A line that is longer than any block that is read."""
    text = "x" * LONG_TEXT
    commands = [f"item sub paren {ZERO} {ZERO} 1", f"item ident plain {ZERO} {text}", "list 0", "show 0", "symbols 0"]
    wants("answers", answers_of(program, commands), ["ok", "ok", "ok", f"({text})", text, "end"])


def many_options(program):
    """A pattern of many options: as many tokens match in one way, fewer in several, and more in none."""
    commands = ["read 0 (" + "$(a)? " * OPTIONS + ") => {b}"]
    for count in (OPTIONS, OPTIONS - 1, OPTIONS + 1):
        commands += ["read 1 " + "a " * count, "arms 0 1 2"]
    wants("answers", answers_of(program, commands), ["ok", "ok", "ok", "ok", "ambiguous", "ok", "no match"])


def all_slots(program):
    """Each slot appended twice, the second time alone."""
    commands = []
    for slot in range(SLOTS):
        commands += [f"item sub paren {ZERO} {ZERO} {slot + 1}"] + [f"item punct joint {ZERO} +"] * (slot + 1)
        commands.append(f"list {slot}")
    commands.append(f"new brace {ZERO} {ZERO}")
    for slot in range(SLOTS):
        commands += [f"append {slot}", f"alone {slot}"]
    commands += ["build 0", "show 0", "flat 0"]
    answers = iter(answers_of(program, commands))
    wants("answers", [next(answers) for _ in commands[:-2]], ["ok"] * (len(commands) - 2))
    # No space follows a joint punct, and none is before a closing text in any case.
    once = [f"({'+' * (slot + 1)})" for slot in range(SLOTS)]
    wants("show", next(answers), "{" + " ".join(text for one in once for text in (one, one)) + "}")
    puncts = [line for line in until_end(answers) if line.startswith("punct")]
    wants("puncts", len(puncts), SLOTS * (SLOTS + 1))
    wants("puncts that became alone", sum(line.startswith("punct alone") for line in puncts), SLOTS)


class Held:
    """What a builder holds, as a plain list: how often parts and symbols are used in it is counted anew each time."""

    def __init__(self):
        # A leaf is its part and its symbol; a header its open part, its close part or None, and whether it is invisible.
        self.tokens, self.open, self.points, self.mark, self.taken = [], [], {}, None, 0

    def push(self, part, symbol):
        """A leaf."""
        self.tokens.append((part, symbol))

    def open_subtree(self, part, is_invisible):
        """A header, whose close is not known."""
        self.open.append(len(self.tokens))
        self.tokens.append([part, None, is_invisible])
        self.mark = None

    def close(self, part):
        """The innermost one gets its close."""
        self.mark = self.open.pop()
        self.tokens[self.mark][1] = part
        self.points = {number: kept for number, kept in self.points.items() if kept[1] <= len(self.open)}

    def unwrap(self):
        """The marked header goes, if it is invisible."""
        if self.mark is not None and self.tokens[self.mark][2]:
            del self.tokens[self.mark]
        self.mark = None

    def point(self):
        """A restore point."""
        self.points[self.taken] = (len(self.tokens), len(self.open))
        self.taken += 1
        self.mark = None

    def restore(self, number):
        """Goes back to a point; returns whether it is valid."""
        if number not in self.points:
            return "no"
        held, depth = self.points[number]
        del self.tokens[held:], self.open[depth:]
        self.points = {other: kept for other, kept in self.points.items() if kept[0] <= held}
        self.mark = None
        return "yes"

    def counts(self):
        """How many different parts and symbols there are."""
        parts, symbols = set(), set()
        for token in self.tokens:
            if isinstance(token, tuple):
                parts.add(token[0])
                symbols.add(token[1])
            else:
                parts.update(part for part in token[:2] if part is not None)
        return len(parts), len(symbols)


def counts_of_many(program):
    """The counts of a builder that grows, goes back, and grows again."""
    held, commands, expected, most = Held(), [f"new brace {ZERO} {ZERO}"], ["ok"], (0, 0)
    for step in range(1, COUNTED_STEPS):
        part, symbol = step * 7 % 163, step * 11 % 331
        span = f"{part}:{step % 2}@{step}..{step + 1}#0"
        part = (part, step % 2)
        if step % 19 == 0:
            commands.append(f"open {('invisible', 'paren')[step % 2]} {span}")
            held.open_subtree(part, step % 2 == 0)
        elif step % 19 == 9 and held.open:
            commands.append(f"close {span}")
            held.close(part)
        elif step % 37 == 11:
            commands.append("unwrap")
            held.unwrap()
        elif step % 41 == 3:
            commands.append("point")
            expected.append(f"point {held.taken}")
            held.point()
        elif step % 101 == 77:
            number = max(held.taken - step % 3 - 1, 0)
            commands.append(f"restore {number}")
            expected.append(held.restore(number))
        else:
            commands.append(f"push ident plain {span} s{symbol}")
            held.push(part, f"s{symbol}")
        if len(expected) < len(commands):
            expected.append("ok")
        counts = held.counts()
        most = tuple(map(max, zip(most, counts)))
        commands.append("counts")
        expected.append("counts {} {}".format(*counts))
    wants("answers", answers_of(program, commands), expected)
    if min(most) <= COUNTED_VALUES:
        raise Wrong(f"{most} parts and symbols are too few for this run")


def many_names(program):
    """A builder of names that are all different."""
    names = [f"a{number}" for number in range(NAMES)]
    commands = [f"new brace {ZERO} {ZERO}"] + [f"push ident plain {ZERO} {name}" for name in names]
    commands += ["counts", "build 0", "symbols 0"]
    answers = iter(answers_of(program, commands))
    wants("pushes", [next(answers) for _ in range(NAMES + 1)], ["ok"] * (NAMES + 1))
    wants("counts to build", [next(answers) for _ in range(2)], [f"counts 1 {NAMES}", "ok"])
    wants("symbols", until_end(answers), names)


def large_tree(program):
    """A tree that is built of many tokens."""
    commands = [f"new brace {ZERO} {ZERO}"] + [f"push punct alone {ZERO} ,"] * BUILT_TOKENS + ["build 0", "split 0 ,"]
    answers = answers_of(program, commands)
    wants("answers", answers[:-1], ["ok"] * (BUILT_TOKENS + 2))
    wants("pieces", answers[-1], "split" + " 0" * (BUILT_TOKENS + 1))


def item_lines(tokens):
    """The lines that put a tree over those tokens on the list."""
    return [f"item sub invisible {ZERO} {ZERO} {len(tokens)}"] + ["item " + token for token in tokens]


def deep_rule(program):
    """A rule with a variable at each of many levels, each used in the template."""
    dollar, colon = f"punct alone {ZERO} $", f"punct alone {ZERO} :"
    names = [f"ident plain {ZERO} x{level}" for level in range(RULE_LEVELS)]
    leaves = [f"ident plain {span_at(level)} y{level}" for level in range(RULE_LEVELS)]
    pattern, trees = [], []
    for name, leaf in zip(reversed(names), reversed(leaves)):
        pattern = [dollar, name, colon, f"ident plain {ZERO} tt", f"sub paren {ZERO} {ZERO} {len(pattern)}", *pattern]
        trees = [leaf, f"sub paren {ZERO} {ZERO} {len(trees)}", *trees]
    template = [token for name in names for token in (dollar, name)]
    commands = []
    for slot, tokens in enumerate((pattern, template, trees)):
        commands += item_lines(tokens) + [f"list {slot}"]
    commands += ["expand 0 1 2 3", "siblings 3"]
    answers = answers_of(program, commands)
    wants("answers", answers[:len(commands) - 1], ["ok"] * (len(commands) - 1))
    wants("siblings", answers[len(commands) - 1:], leaves + ["end"])


def many_points(program):
    """Points that are valid until one before them is restored."""
    commands, expected = [f"new brace {ZERO} {ZERO}"], ["ok"]
    for number in range(POINTS):
        commands += ["point", f"push ident plain {ZERO} a{number}"]
        expected += [f"point {number}", "ok"]
    half = POINTS // 2
    # A point, whether it is valid, and how many tokens are held then.
    for number, stands, held in (
        (POINTS - 1, "yes", POINTS - 1), (half, "yes", half), (half, "yes", half), (half + 1, "no", half),
        (POINTS, "no", half), (half - 1, "yes", half - 1), (half, "no", half - 1),
    ):
        commands += [f"restore {number}", "counts"]
        expected += [stands, f"counts 1 {held}"]
    commands.append("point")
    expected.append(f"point {POINTS}")
    wants("answers", answers_of(program, commands), expected)


def brackets_of_a_text(program):
    """Texts of many brackets, one in the other: they match, or what is open is not closed, or closed by another."""
    left, right = "(" * BRACKETS, ")" * BRACKETS
    commands = [
        f"read 0 {left}{right}", "text 0", f"read 1 {left}", f"read 1 {left}]", f"read 1 {left}{right})", "text 1",
        "read 1 " + "[{(" * BRACKETS + ")}]" * BRACKETS,
    ]
    wants("answers", answers_of(program, commands), [
        "ok", left + right, f"text {BRACKETS - 1} unclosed (", f"text {BRACKETS} ] for ( at {BRACKETS - 1}",
        f"text {2 * BRACKETS} unopened )", "empty", "ok",
    ])


RUNS = (
    long_list, deep_nest, deepest_nest, debug_of_a_nest, replaced_leaves, long_line, many_options, all_slots, counts_of_many, many_names,
    large_tree, deep_rule, many_points, brackets_of_a_text,
)


def main():
    """Makes the runs one after the other."""
    failed = False
    for run in RUNS:
        try:
            run(sys.argv[1])
            print(f"ok {run.__name__}")
        except (Wrong, subprocess.TimeoutExpired, ValueError, IndexError, StopIteration) as why:
            failed = True
            print(f"FAILED {run.__name__}: {why}")
    sys.exit(failed)


main()
