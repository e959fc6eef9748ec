"""Commands made by chance (docs/CONSOLE.md): those that a user may send, and some that are refused."""
import itertools

from made_arms import Arms
from made_rules import NAMES, Rules
from made_texts import Texts
from made_values import CUTS, FEW_SLOTS, MANY_PARTS, MANY_SYMBOLS, MOST, SLOTS
from plain_machine import Header
from plain_pieces import piece
from plain_stored import SPACINGS
from plain_trees import Ident, Literal, Punct, Span, Subtree, flat, size

COMMANDS = 530
MOST_POINT = 2**64 - 1
# So many different parts and symbols a large script has: an index of each needs the longest form of those below.
LARGE_PARTS = 2048 * 16 + 8
LARGE_SYMBOLS = 2 * 8192 + 8
# One script among so many begins with a tree of that size.
LARGE_EACH = 300
# Different values in a builder that go by the hundreds.
COUNTED = (90, 130, 270, 300)
SHOWN = "show pretty debug flat siblings walk glue bytes parts symbols save text".split()
STORED = "bytes parts symbols".split()
# How often each command, or some that belong together, come among others.
WEIGHTS = {
    "tree": 4, "spoiled_list": 1, "mended_list": 1, "rule": 10, "spoiled_rule": 1, "edge": 1, "table": 0.5, "joined": 3,
    "new": 2, "open": 11, "push": 14, "close": 10, "append": 3, "alone": 3, "ends_alone": 1, "unwrap": 4, "marked": 3,
    "point": 4, "restore": 4, "points": 0.3, "many": 0.1, "expected": 1, "counts": 4, "build": 2, "skip": 2, "skipped": 1,
    "copy": 2, "kind": 2, "spans": 2, "set": 3, "ids": 2, "rewrite": 4, "expand": 1.5, "macro_used": 6, "near_read": 1.5, "arms": 0.5, "equal": 2, "nearly_equal": 1,
    "split": 5, "shown": 13, "load": 15, "read": 36, "written": 13,
}
# Signs that make a comment, a prefix or a lifetime with what they touch, and others.
TOUCHING = "//**##''-:="


class Script(Rules, Arms, Texts):
    """Commands made by chance. A method `add_VERB` adds one of that verb; a verb that has none has no values."""

    def __init__(self, seed):
        super().__init__(seed)
        self.commands, self.points = [], 0
        if seed % LARGE_EACH == LARGE_EACH - 1:
            self.add_large()
        most = len(self.commands) + COMMANDS
        self.add_tree(0)
        self.add_tree(1)
        self.add_new()
        while len(self.commands) < most:
            (name,) = self.chance.choices(list(WEIGHTS), list(WEIGHTS.values()))
            getattr(self, f"add_{name}", lambda verb=name: self.add(verb))()
        for slot, verb in itertools.product(range(FEW_SLOTS), ("bytes", "parts", "symbols", "flat")):
            self.add(verb, slot)

    def add(self, *command):
        """One more command: its verb and its values."""
        self.commands.append(command)

    def tokens_of(self, trees):
        """The tokens of the trees, as a list has them."""
        for tree in flat(trees):
            is_subtree = isinstance(tree, Subtree)
            yield Header((tree.kind, tree.open_span, tree.close, size(tree.children))) if is_subtree else tree

    def add_list(self, tokens, slot):
        """A list of those tokens alone."""
        self.add("clear")
        for token in tokens:
            self.add("item", token)
        self.add("list", slot)

    def put(self, slot, trees):
        """A tree over those in a slot."""
        self.add_list(self.tokens_of([self.subtree(trees)]), slot)

    def add_tree(self, slot=None):
        """A tree in a slot."""
        self.put(self.slot() if slot is None else slot, self.trees(self.pick((1, 3, 6)), self.pick((5, 40, 150, 300))))

    def add_large(self):
        """A tree of many parts and symbols, which is stored, and then is there no more."""
        slot = SLOTS - 1
        self.put(slot, self.ring(LARGE_PARTS) + self.many_leaves(1, LARGE_SYMBOLS))
        for verb in STORED:
            self.add(verb, slot)
        self.put(slot, [])

    def add_edge(self):
        """A tree with a header that ends a format."""
        slot = self.slot()
        self.put(slot, [self.edge_subtree()])
        self.add("bytes", slot)

    def add_table(self):
        """A tree whose tables are ordered by first use, or just not."""
        slot = self.slot()
        trees = self.many_leaves(self.pick(MANY_PARTS), self.pick(MANY_SYMBOLS))
        self.put(slot, trees if self.happens(0.7) else self.ring(self.below(8) + 125))
        for verb in STORED:
            self.add(verb, slot)

    def add_joined(self):
        """A tree of puncts of one operator."""
        slot = self.slot()
        self.put(slot, [punct for _ in range(8) for punct in self.run()])
        self.add("glue", slot)

    def add_spoiled_list(self):
        """A list that mostly spells no subtree."""
        tokens = list(self.tokens_of([self.subtree(self.trees(2, 8))]))
        place = self.below(len(tokens))
        if isinstance(tokens[place], Header):
            kind, open_span, close, length = tokens[place]
            tokens[place] = Header((kind, open_span, close, max(0, length + self.pick((1, -1, 5)))))
        if self.happens(0.3):
            tokens = self.pick((tokens[1:], tokens + tokens, tokens[-1:]))
        self.add_list(tokens, self.slot())

    def add_mended_list(self):
        """A list without its last token, then with it, and then a list of none."""
        slot, (*tokens, last) = self.slot(), self.tokens_of([self.subtree([self.leaf(), *self.trees(1, 4)])])
        self.add_list(tokens, slot)
        self.add("item", last)
        for verb in ("list", "flat", "list"):
            self.add(verb, slot)

    def rule(self):
        """A pattern and a template."""
        names = [Ident(raw, self.span(), text) for raw in ("plain", "raw") for text in NAMES]
        self.chance.shuffle(names)
        left = list(names)
        pattern = self.pattern(left)
        return pattern, self.template([name for name in names if name not in left])

    def expand_all(self, pattern, template, trees):
        """What a rule makes of an input."""
        slots = self.chance.sample(range(FEW_SLOTS), 3)
        for slot, below in zip(slots, (pattern, template, trees)):
            self.put(slot, below)
        to = self.slot()
        self.add("expand", *slots, to)
        self.add("flat", to)

    def add_rule(self):
        """A rule, an input for it, and what it makes."""
        pattern, template = self.rule()
        self.expand_all(pattern, template, self.instance(pattern))

    def add_spoiled_rule(self):
        """A rule whose pattern and template have faults, or one of them."""
        pattern, template = self.rule()
        which = self.below(3)
        self.expand_all(
            self.spoiled(pattern) if which != 0 else pattern, self.spoiled(template) if which != 1 else template, []
        )

    def add_expand(self):
        self.add("expand", *(self.slot() for _ in range(4)))

    def put_text(self, slot, text):
        """The trees of a text in a slot, as they are read, or with changes."""
        if self.happens(0.6):
            self.add("read", slot, text)
        else:
            self.put(slot, self.changed_trees(text))

    def add_macro_used(self):
        """A macro of several arms, an input for it, and what it makes."""
        made = self.macro()
        if made is None:
            return
        slots = self.chance.sample(range(FEW_SLOTS), 2)
        for slot, text in zip(slots, made):
            self.put_text(slot, text)
        to = self.slot()
        self.add("arms", *slots, to)
        self.add("flat", to)

    def add_near_read(self):
        """An arm whose pattern is a leaf or an empty subtree, and an input that is like it, or nearly so; or an arm of `crate` or a literal."""
        tree = self.pick((self.literal, self.ident, lambda: self.subtree([])))()
        near = self.subtree([]) if isinstance(tree, Subtree) else self.alike(tree)
        slots = self.chance.sample(range(FEW_SLOTS), 2)
        arm = self.crate_arm() if self.happens(0.2) else self.arm_of([tree], [])
        if self.happens(0.3):
            arm, near = self.literal_arm()
        self.put(slots[0], arm)
        self.put(slots[1], [near])
        to = self.slot()
        self.add("arms", *slots, to)
        self.add("flat", to)

    def add_arms(self):
        self.add("arms", *(self.slot() for _ in range(3)))

    def add_new(self):
        self.points = 0
        self.add("new", self.delimiter_kind(), self.span(), self.span())

    def add_open(self, kind=None):
        self.add("open", kind or self.delimiter_kind(), self.span())

    def add_push(self):
        self.add("push", self.leaf())

    def add_close(self):
        self.add("close", self.span())

    def add_append(self):
        self.add("append", self.slot())

    def add_alone(self):
        self.add("alone", self.slot())

    def add_ends_alone(self):
        """A tree that ends in a punct, some levels deep, which becomes alone."""
        slot, trees = self.slot(), [self.leaf(), Punct(self.pick(SPACINGS), self.span(), ";")]
        for _ in range(self.below(3)):
            trees = [self.subtree(trees)]
        self.put(slot, trees)
        self.add_new()
        self.add("alone", slot)
        self.build_and_read(slot)

    def build_and_read(self, slot, verb="build"):
        """What the builder holds, as a tree."""
        self.add(verb, slot)
        self.add("flat", slot)

    def add_invisible(self):
        """An invisible or opaque subtree over a leaf or two, which is then marked."""
        self.add_open(self.pick(("invisible", "invisible", "opaque", "paren")))
        for _ in range(self.below(2) + 1):
            self.add_push()
        self.add_close()

    def add_marked(self):
        """Marks that are set, left and cleared, and a removal after that."""
        self.add_new()
        self.add_invisible()
        self.add_point()
        for _ in range(self.below(3)):
            self.pick((self.add_open, self.add_push, self.add_point))()
        self.add_invisible()
        for _ in range(self.below(3)):
            step = self.pick(("push", "append", "point", "restore", "restore", "open", "close", "unwrap", "counts"))
            getattr(self, f"add_{step}", lambda verb=step: self.add(verb))()
        self.add("unwrap")
        self.add("expected")
        for _ in range(4):
            self.add_close()
        self.build_and_read(self.slot())

    def add_point(self):
        self.points += 1
        self.add("point")

    def add_restore(self):
        last = max(0, self.points - self.below(4))
        self.add("restore", self.pick((0, last, last, last, self.below(12), MOST_POINT)))

    def add_points(self):
        """Many points, some of them of as many tokens, and restores of theirs."""
        self.add_new()
        for _ in range(self.below(60)):
            self.add_point()
            if self.happens(0.7):
                self.add_push()
        for _ in range(8):
            self.add("restore", self.below(self.points + 1))
            self.add("counts")
            self.add_point()

    def add_many(self):
        """A builder whose different values go by the hundreds, and go back."""
        parts, symbols = self.pick(COUNTED), self.pick(COUNTED)
        slot = self.slot()
        self.put(slot, self.many_leaves(parts, symbols))
        self.add_new()
        self.add_push()
        self.add_point()
        for command in (("append", slot), ("append", slot), ("restore", 0), ("append", slot)):
            self.add(*command)
            self.add("counts")
        self.add_open()
        self.add_push()
        self.add("counts")

    def add_build(self):
        self.add("build", self.slot())

    def add_skip(self):
        self.add("skip", self.slot())

    def add_skipped(self):
        """A builder of one subtree, or two, without its top."""
        self.add_new()
        for _ in range(self.below(2) + 1):
            self.add_invisible()
        self.build_and_read(self.slot(), "skip")

    def add_copy(self):
        self.add("copy", self.slot(), self.slot())

    def add_kind(self):
        self.add("kind", self.slot(), self.delimiter_kind())

    def add_spans(self):
        self.add("spans", self.slot(), self.span(), self.span())

    def add_set(self):
        self.add("set", self.slot(), self.pick((0, 1, 2, 3, self.below(30), MOST)), self.leaf())

    def add_ids(self):
        self.add("ids", self.slot(), [self.pick((0, 1, 2, self.below(MOST))) for _ in range(self.below(6))])

    def add_rewrite(self):
        slot = self.slot()
        actions = ["keep", "keep", "keep", "remove", f"put:{self.below(FEW_SLOTS)}", f"put:{self.slot()}"]
        if self.happens(0.2):
            actions += [f"put:{slot}", f"put:{self.below(SLOTS)}"]
        self.add("rewrite", slot, [self.pick(actions) for _ in range(self.below(8))])

    def add_equal(self):
        self.add("equal", self.slot(), self.slot())

    def add_nearly_equal(self):
        """Two trees that differ in their tops, or in a leaf, or in nothing."""
        slot, other = self.chance.sample(range(FEW_SLOTS), 2)
        self.add("copy", slot, other)
        span = self.span()
        self.add("spans", slot, span, span)
        self.add("spans", other, self.pick((span, span, self.span())), self.pick((span, span, self.span())))
        change = self.pick((("kind", slot, self.delimiter_kind()), ("set", slot, 1, self.leaf()), ("flat", slot)))
        self.add(*change)
        self.add("equal", slot, other)

    def add_load(self):
        """The bytes of a tree, mostly with something wrong in them."""
        slot, trees = self.slot(), [self.edge_subtree()] if self.happens(0.1) else self.trees(1, self.pick((1, 1, 2, 12)))
        end = Span(0, 0, MOST - 1, MOST, 0)
        last = self.pick((
            Literal(self.pick(("float", "err")), self.pick((0, 0, 1)), end, self.pick(("é", "1é"))), Punct("joint", end, "→"),
            Subtree("opaque", self.span(), self.span(), ()),
        ))
        data = piece(self.subtree(self.pick(([self.leaf()], [last], trees))))
        for _ in range(self.pick((0, 1, 1, 1, 2))):
            data = self.spoiled_bytes(data)
        self.add("load", slot, data.hex())
        self.add("flat", slot)

    def spoiled_bytes(self, data):
        """The bytes with a change, mostly to one of the last: another value there, the end left out, more behind it, some taken
        out or doubled, a symbol that is not used."""
        place = max(0, len(data) - 1 - self.below(self.pick((3, 16)))) if self.happens(0.7) else self.below(len(data) + 1)
        byte = data[place] if place < len(data) else 0
        byte = self.pick((byte ^ 1 << self.below(8), (byte + 64) % 256, self.pick((0, 1, 2, 255)), self.below(256)))
        packed = len(data) - int.from_bytes(data[12:16], "little")
        symbols = int.from_bytes(data[8:12], "little") + 1
        return self.pick((
            *[data[:place] + bytes([byte]) + data[place + 1:]] * 6,
            data[:place],
            data + bytes(self.below(3) + 1),
            data[:place] + data[place + 1:],
            data[:place] + data[max(0, place - 12):],
            data[:8] + symbols.to_bytes(4, "little") + data[12:packed] + b"\1\0\0\0z" + data[packed:],
        ))

    def add_read(self):
        """A text, and the tree that it is."""
        slot = self.slot()
        last = self.pick(("/// a\r", "/// a\r\r")) if self.happens(0.01) else ""
        self.add("read", slot, self.rust_text(self.pick((1, 2, 3, 6, 12, 40))) + last)
        self.add("flat", slot)
        self.add("text", slot)

    def add_written(self):
        """A tree of few leaves, most of which can be written, and its text."""
        slot = self.slot()
        trees = [self.written_tree() for _ in range(self.pick((1, 2, 2, 3, 3, 5)))]
        self.add_list(self.tokens_of([self.subtree(trees)]), slot)
        self.add("text", slot)

    def written_tree(self):
        """A sign, a name, a literal, or a subtree of few leaves."""
        if self.happens(0.45):
            return Punct(self.pick(("joint", "joint", "hidden", "alone")), self.span(), self.pick(TOUCHING))
        if self.happens(0.25):
            inside = self.subtree([self.written_tree() for _ in range(self.pick((0, 1, 1, 2)))])
            return inside._replace(kind=self.pick((inside.kind, "opaque", "invisible")))
        if self.happens(0.5):
            return Ident(self.pick(("plain", "plain", "raw")), self.span(), self.pick(("a", "b", "crate", "_", "a b", "1", "r#a", "fn")))
        kind, text = self.pick((("str", "x"), ("str", 'x"'), ("err", '"x"y'), ("int", "1"), ("int", "-1"), ("char", "x"), ("char", ""), ("rstr:1", "x"), ("err", "a")))
        return Literal(kind, 0, self.span(), text)

    def add_split(self):
        self.add("split", self.slot(), self.pick(CUTS))

    def add_shown(self):
        self.add(self.pick(SHOWN), self.slot())
