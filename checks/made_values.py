"""Values of commands made by chance (docs/CONSOLE.md): spans, tokens, trees, those at the ends of forms among them."""
import random

from plain_stored import DELIMITER_KINDS, SPACINGS
from plain_trees import THREE, TWO, Ident, Literal, Punct, Span, Subtree, size

# Of the sixteen slots most commands use these.
FEW_SLOTS = 4
SLOTS = 16
MOST = 2**32 - 1
# Numbers at which the forms of a span end.
STARTS = (0, 131071, 131072, 134217727, 134217728, MOST - 5)
LENGTHS = (0, 1, 255, 256, 262143, 262144, 2**31)
# Distances of a close from its open at which the formats of a header end.
DISTANCES = (0, 1, 7, 8, 255, 256, 2047, 2048)
# Numbers of tokens, and of bytes, at which they end.
TOKENS = (254, 255, 256)
BYTES = (254, 255, 256, 4094, 4095, 4096)
SUFFIXES = (1, 14, 15, 16, 17, 254, 255)
# Numbers of different values at which the order of a table changes, or the form of a reference.
MANY_PARTS = (14, 15, 16, 17)
MANY_SYMBOLS = (62, 63, 64, 65, 66)
CHARS = "$:;,=<>.&|-!+*/^%'#@~?→é\x7f\x80"
GLUED = "<>=.:&|-!"
CUTS = ";,=é$ "
# Puncts that are no operator: two, and three.
NO_TWOS = "++ -- <> =< .= =- '= := ~= =! >- ?? $$".split()
NO_THREES = "=== =>> &&= ||= ::= >>> <<< ->> ..< .==".split()
RUNS = sorted(THREE | TWO) + NO_TWOS + NO_THREES
TEXTS = ("_", "true", "false", "ident", "tt", "literal", "é", "", "a b", "x→y", "v" * 300)
LITERAL_KINDS = (
    "byte", "char", "int", "float", "str", "rstr:0", "rstr:1", "rstr:2", "rstr:255", "bstr", "rbstr:0", "rbstr:3",
    "cstr", "rcstr:1", "err",
)


class Values:
    """Values made by chance. The first draws decide how many different spans and texts there are, and how wide trees are."""

    def __init__(self, seed):
        self.chance = random.Random(seed)
        self.pick, self.below = self.chance.choice, self.chance.randrange
        self.files, self.asts, self.contexts = self.pick((1, 2, 5)), self.pick((1, 2, 8)), self.pick((1, 2, 4))
        self.starts, self.is_wide = self.pick((10, 300, 3000)), self.happens(0.3)
        self.texts, self.width = self.pick((3, 20, 400)), self.pick((3, 8, 40, 200))

    def happens(self, chance):
        """Whether something of that chance happens."""
        return self.chance.random() < chance

    def slot(self):
        """A slot, mostly one of few."""
        return self.below(FEW_SLOTS if self.happens(0.9) else SLOTS)

    def delimiter_kind(self):
        """A kind of delimiter."""
        return self.pick(DELIMITER_KINDS)

    def span(self):
        """A span; if they are wide, one near the end of a form at times."""
        start, length = self.below(self.starts), self.pick((0, 1, 1, 1, 1, 2, 5))
        if self.is_wide and self.happens(0.2):
            start, length = self.pick((*STARTS, self.below(MOST))), self.pick((*LENGTHS, self.below(2**20)))
        file, ast, context = self.below(self.files), self.below(self.asts), self.below(self.contexts)
        return Span(file, ast, start, min(start + length, MOST), context)

    def text(self):
        """A text, mostly one of many alike."""
        if self.happens(0.1):
            return self.pick(TEXTS if self.happens(0.5) else CUTS)
        return f"s{self.below(self.texts)}"

    def punct(self):
        """A punct, mostly one that may be part of an operator."""
        return Punct(self.pick((*SPACINGS, "joint")), self.span(), self.pick(CHARS if self.happens(0.4) else GLUED))

    def run(self):
        """Puncts that are mostly one operator."""
        return [Punct(self.pick((*SPACINGS, *["joint"] * 6)), self.span(), char) for char in self.pick(RUNS)]

    def literal(self):
        """A literal. Its suffix is none, or cuts no character in two."""
        if self.happens(0.1):
            return Literal(self.pick(LITERAL_KINDS), self.pick(SUFFIXES), self.span(), "w" * 260)
        text = self.text()
        suffix = text[len(text) - self.below(len(text) + 1):] if self.happens(0.4) else ""
        suffix_len = len(suffix.encode())
        return Literal(self.pick(LITERAL_KINDS), suffix_len if suffix_len < 256 else 0, self.span(), text)

    def ident(self):
        """An ident."""
        return Ident(self.pick(("plain", "plain", "plain", "raw")), self.span(), self.text())

    def leaf(self):
        """A leaf of any kind."""
        return self.pick((self.punct, self.punct, self.ident, self.ident, self.literal))()

    def close_of(self, open_span):
        """A span, or one like the open span and not far behind it."""
        distance = self.pick(DISTANCES)
        if self.happens(0.5) or open_span.end + distance > MOST:
            return self.span()
        return open_span._replace(start=open_span.start + distance, end=open_span.end + distance)

    def subtree(self, children):
        """A subtree over trees."""
        open_span = self.span()
        return Subtree(self.delimiter_kind(), open_span, self.close_of(open_span), tuple(children))

    def trees(self, depth, most):
        """Some trees of at most so many levels, and not many more tokens than that."""
        trees = []
        while most > 0 and len(trees) < self.width and self.happens(0.9):
            if depth > 0 and self.happens(0.3):
                trees.append(self.subtree(self.trees(depth - 1, most // 2)))
                most -= size(trees[-1:])
                continue
            leaves = self.run() if self.happens(0.1) else [self.leaf()]
            trees += leaves
            most -= len(leaves)
        return trees

    def near(self, file=0):
        """A span that takes four bytes if its part is one of the first sixteen."""
        start = self.below(100_000)
        return Span(file, 0, start, start + self.pick((0, 1, 1, 255)), 0)

    def leaves_of(self, count):
        """Leaves of one part and one symbol, which take so many bytes, 20 or more."""
        far = Span(0, 0, 2**31, 2**31, 0)
        wide = (count - 20) // 17 if count > 1000 else 0
        left = count - 17 * wide
        literals = [Literal("str", 0, self.near(), "w") for _ in range(left % 5)]
        idents = [Ident("plain", self.near(), "w") for _ in range((left - 6 * len(literals)) // 5)]
        return [Punct("alone", far, "é")] * wide + literals + idents

    def edge_subtree(self):
        """A subtree whose header ends a format: by its tokens, or by their bytes."""
        if self.happens(0.3):
            children = [Ident("raw", self.near(), "w") for _ in range(self.pick(TOKENS))]
        else:
            children = self.leaves_of(self.pick(BYTES))
        open_span = self.near()
        distance = self.pick((0, 7, 255))
        close = open_span._replace(start=open_span.start + distance, end=open_span.end + distance)
        return Subtree(self.pick(DELIMITER_KINDS[:4]), open_span, close, tuple(children))

    def many_leaves(self, parts, symbols):
        """Leaves that use each of so many parts and symbols, and some of them once more."""
        numbers = [(place % parts, place % symbols) for place in range(max(parts, symbols))]
        numbers += [(self.below(parts), self.below(symbols)) for _ in range(self.below(4))]
        return [Ident("plain", self.near(part), f"t{symbol}") for part, symbol in numbers]

    def ring(self, parts):
        """Empty subtrees whose close has the part of the next one's open: each part is used twice."""
        return [
            Subtree("paren", Span(part, 1, 0, 1, 0), Span((part + 1) % parts, 1, 1, 2, 0), ()) for part in range(parts)
        ]
