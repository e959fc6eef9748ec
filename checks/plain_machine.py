"""The machine of the language on plain trees (docs/CONSOLE.md).

Each command is a method that gives its answer, a list of lines. Nothing is stored or packed: what the program holds in
bytes and tables is here a tree, a list or a number.
"""
from plain_arms import ArmFault, made_by_arms
from plain_lists import Header, NotOneSubtree, one_subtree, trees_of  # noqa: F401
from plain_pieces import WrongBytes, piece, tree_of_piece
from plain_rules import RuleFault, expanded
from plain_stored import Stored, part_table, parts_used, symbol_table, symbols_used
from plain_text import WrongText, tree_of_text
from plain_trees import (
    Subtree, alone, debug_lines, flat, glued_sizes, piece_sizes, size, text_of, token_words, walk,
)
from plain_written import NotWritable, written

SLOTS = 16


class Builder:
    """Levels of trees: the top's, and one for each open subtree, whose kind and open span are its header."""

    def __init__(self, kind, open_span, close):
        self.top, self.headers, self.levels = (kind, open_span, close), [], [[]]
        # the place of the marked subtree in the innermost level; points by their numbers
        self.mark, self.points, self.taken = None, {}, 0

    def held(self):
        """How many tokens it holds, without the top."""
        return len(self.headers) + sum(size(level) for level in self.levels)

    def append(self, trees):
        """Adds trees to the innermost level."""
        self.levels[-1] += trees

    def open(self, kind, open_span):
        """Opens a subtree."""
        self.headers.append((kind, open_span))
        self.levels.append([])
        self.mark = None

    def close(self, close):
        """Closes the innermost subtree."""
        (kind, open_span), children = self.headers.pop(), self.levels.pop()
        self.mark = len(self.levels[-1])
        self.append([Subtree(kind, open_span, close, tuple(children))])
        self.points = {number: kept for number, kept in self.points.items() if len(kept[1]) <= len(self.headers)}

    def unwrap(self):
        """Puts the children of the marked subtree in its place, if it is invisible."""
        mark, self.mark, level = self.mark, None, self.levels[-1]
        if mark is not None and level[mark].kind == "invisible":
            level[mark:mark + 1] = level[mark].children

    def point(self):
        """Takes a restore point, and gives its number."""
        self.points[self.taken] = self.held(), tuple(self.headers), tuple(map(tuple, self.levels))
        self.taken += 1
        self.mark = None
        return self.taken - 1

    def restore(self, number):
        """Goes back to a point. Returns whether it is valid."""
        if number not in self.points:
            return False
        held, headers, levels = self.points[number]
        self.headers, self.levels, self.mark = list(headers), list(map(list, levels)), None
        self.points = {other: kept for other, kept in self.points.items() if kept[0] <= held}
        return True

    def counts(self):
        """How many different parts and symbols are used."""
        trees = [tree for level in self.levels for tree in level]
        parts = {span.part() for _, span in self.headers}.union(parts_used(trees))
        return len(parts), len(set(symbols_used(trees)))

    def tree(self):
        """The tree of what it holds."""
        return Subtree(*self.top, tuple(self.levels[0]))


def yes_or_no(does):
    """The answer to a question."""
    return ["yes" if does else "no"]


class Machine:
    """Slots, a list, and a builder or none.

    The methods behind `answer` are the commands. One that gives nothing answers `ok`.
    """

    def __init__(self):
        self.slots, self.items, self.builder = [None] * SLOTS, [], None

    def answer(self, verb, *values):
        """What is answered to a command."""
        if verb in BUILDER_VERBS:
            if self.builder is None:
                return ["no builder"]
            return getattr(self, verb)(*values) or ["ok"]
        if any(self.slots[values[place]] is None for place in READ.get(verb, ())):
            return ["empty"]
        return getattr(self, verb)(*values) or ["ok"]

    def item(self, token):
        self.items.append(token)

    def clear(self):
        self.items = []

    def list(self, slot):
        try:
            self.slots[slot] = one_subtree(trees_of(self.items))
        except NotOneSubtree:
            return ["fault 2"]
        self.items = []

    def new(self, kind, open_span, close):
        self.builder = Builder(kind, open_span, close)

    def open(self, kind, open_span):
        self.builder.open(kind, open_span)

    def push(self, leaf):
        self.builder.append([leaf])

    def close(self, close):
        if not self.builder.headers:
            return ["none open"]
        self.builder.close(close)

    def append(self, slot):
        if self.slots[slot] is None:
            return ["empty"]
        self.builder.append([self.slots[slot]])

    def alone(self, slot):
        if self.slots[slot] is None:
            return ["empty"]
        self.builder.append(alone((self.slots[slot],)))

    def unwrap(self):
        self.builder.unwrap()

    def point(self):
        return [f"point {self.builder.point()}"]

    def restore(self, number):
        return yes_or_no(self.builder.restore(number))

    def expected(self):
        return [" ".join(["expected"] + [kind for kind, _ in reversed(self.builder.headers)])]

    def counts(self):
        return ["counts {} {}".format(*self.builder.counts())]

    def build(self, slot, skips=False):
        if self.builder.headers:
            return ["still open"]
        tree = self.builder.tree()
        if skips and len(tree.children) == 1 and isinstance(tree.children[0], Subtree):
            tree = tree.children[0]
        self.slots[slot], self.builder = tree, None

    def skip(self, slot):
        return self.build(slot, True)

    def copy(self, to, source):
        self.slots[to] = self.slots[source]

    def kind(self, slot, kind):
        self.slots[slot] = self.slots[slot]._replace(kind=kind)

    def spans(self, slot, open_span, close):
        self.slots[slot] = self.slots[slot]._replace(open_span=open_span, close=close)

    def set(self, slot, place, leaf):
        tokens = list(flat([self.slots[slot]]))
        if place >= len(tokens):
            return ["fault 3"]
        if isinstance(tokens[place], Subtree):
            return ["fault 4"]
        places = iter(range(len(tokens)))
        self.slots[slot] = self.mapped(self.slots[slot], lambda token: leaf if next(places) == place else token)

    def mapped(self, tree, change):
        """The tree with each of its tokens changed, a header before what it holds."""
        tree = change(tree)
        if not isinstance(tree, Subtree):
            return tree
        return tree._replace(children=tuple(self.mapped(child, change) for child in tree.children))

    def ids(self, slot, ids):
        tree = self.slots[slot]
        old = part_table(tree)
        new = ids[:len(old)] + [ast for _, ast, _ in old[len(ids):]]
        by_part = dict(zip(old[:-2], new))

        def change(token):
            if isinstance(token, Subtree):
                open_span, close = (span._replace(ast=by_part[span.part()]) for span in (token.open_span, token.close))
                return token._replace(open_span=open_span, close=close)
            return token._replace(span=token.span._replace(ast=by_part[token.span.part()]))

        children = tuple(self.mapped(child, change) for child in tree.children)
        open_span, close = tree.open_span._replace(ast=new[-2]), tree.close._replace(ast=new[-1])
        self.slots[slot] = Subtree(tree.kind, open_span, close, children)

    def rewrite(self, slot, actions):
        for action in actions:
            if action == f"put:{slot}":
                return ["same"]
            if action.startswith("put:") and self.slots[int(action[4:])] is None:
                return ["empty"]
        try:
            self.slots[slot] = one_subtree(self.rewritten(self.slots[slot], iter(actions)))
        except NotOneSubtree:
            return ["fault 2"]

    def rewritten(self, tree, actions):
        """What a tree becomes."""
        action = next(actions, "keep")
        if action == "remove":
            return ()
        if action != "keep":
            return (self.slots[int(action[4:])],)
        if not isinstance(tree, Subtree):
            return (tree,)
        children = tuple(new for child in tree.children for new in self.rewritten(child, actions))
        return (tree._replace(children=children),)

    def expand(self, pattern, template, source, to):
        try:
            children = expanded(*(self.slots[slot].children for slot in (pattern, template, source)))
        except RuleFault as fault:
            return [f"rule {fault}"]
        if children is None:
            return ["no match"]
        self.slots[to] = self.slots[template]._replace(children=children)

    def arms(self, arms, source, to):
        try:
            made = made_by_arms(self.slots[arms].children, self.slots[source].children)
        except ArmFault as fault:
            return ["rule {} {}".format(*fault.args)]
        if isinstance(made, str):
            return [made]
        self.slots[to] = made

    def show(self, slot):
        return [text_of((self.slots[slot],), ("joint", "hidden"))]

    def pretty(self, slot):
        return [text_of((self.slots[slot],), ("joint",))]

    def debug(self, slot):
        return [*debug_lines([self.slots[slot]]), "end"]

    def flat(self, slot):
        return [*map(token_words, flat([self.slots[slot]])), "end"]

    def siblings(self, slot):
        return [*map(token_words, flat(self.slots[slot].children)), "end"]

    def walk(self, slot):
        return [*walk([self.slots[slot]]), "end"]

    def glue(self, slot):
        return [" ".join(["glue", *glued_sizes(self.slots[slot].children)])]

    def split(self, slot, char):
        return [" ".join(["split", *piece_sizes(self.slots[slot].children, char)])]

    def bytes(self, slot):
        return [Stored(self.slots[slot]).all().hex()]

    def parts(self, slot):
        return [*("{}:{}#{}".format(*part) for part in part_table(self.slots[slot])), "end"]

    def symbols(self, slot):
        return [*symbol_table(self.slots[slot]), "end"]

    def save(self, slot):
        return [piece(self.slots[slot]).hex()]

    def load(self, slot, digits):
        try:
            self.slots[slot] = tree_of_piece(bytes.fromhex(digits))
        except WrongBytes as wrong:
            return ["bytes {} {}".format(*wrong.args)]

    def read(self, slot, text):
        try:
            self.slots[slot] = tree_of_text(text)
        except WrongText as wrong:
            return ["text {} {}".format(*wrong.args)]

    def text(self, slot):
        try:
            return [written((self.slots[slot],))]
        except NotWritable as place:
            return [f"not writable {place}"]

    def equal(self, left, right):
        return yes_or_no(self.slots[left] == self.slots[right])


# The verbs that look for a builder first.
BUILDER_VERBS = set("open push close append alone unwrap point restore expected counts build skip".split())
# Which values of a command are slots that have to hold a tree.
READ = {"copy": (1,), "equal": (0, 1), "expand": (0, 1, 2), "arms": (0, 1)}
READ.update((verb, (0,)) for verb in "kind spans set ids rewrite split".split())
READ.update((verb, (0,)) for verb in "show pretty debug flat siblings walk glue bytes parts symbols save text".split())
