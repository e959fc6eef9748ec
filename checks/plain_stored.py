"""What is stored for a plain tree: its two tables and its bytes (docs/FORMATS.md)."""
from collections import Counter

from plain_trees import Ident, Literal, Punct, Subtree, flat, size

SHORT_PARTS = 15
SHORT_SYMBOLS = 63
DELIMITER_KINDS = ("paren", "brace", "bracket", "invisible", "opaque")
SPACINGS = ("alone", "joint", "hidden")
LITERAL_KINDS = ("byte", "char", "int", "float", "str", "rstr", "bstr", "rbstr", "cstr", "rcstr", "err")
SHORT_LITERALS = {"str": 3, "rstr:0": 4, "rstr:1": 11, "int": 12}


def parts_used(trees):
    """The span parts that the tokens use, in order."""
    for tree in flat(trees):
        if isinstance(tree, Subtree):
            yield tree.open_span.part()
            yield tree.close.part()
        else:
            yield tree.span.part()


def symbols_used(trees):
    """The symbols that the tokens use, in order."""
    return (tree.text for tree in flat(trees) if isinstance(tree, (Ident, Literal)))


def table(used, most_by_first_use):
    """Each value once: by first use, or if they are many, those used most in front."""
    counts = Counter(used)
    values = list(counts)
    if len(values) > most_by_first_use:
        values.sort(key=lambda value: -counts[value])
    return values


def part_table(top):
    """The span parts of a tree, and then the two of its top."""
    return table(parts_used(top.children), SHORT_PARTS) + [top.open_span.part(), top.close.part()]


def symbol_table(top):
    """The symbols of a tree."""
    return table(symbols_used(top.children), SHORT_SYMBOLS)


def number(value, count):
    """A number in so many bytes, lowest first."""
    return value.to_bytes(count, "little")


def span_bytes(part, start, length, extra, is_full=False):
    """A span whose part has that index."""
    part_rest, length_rest, start_rest = part // 16, length // 256, start // 131072
    first = extra + (part % 16 << 2) + (length % 256 << 6) + (start % 131072 << 15)
    if not is_full and part_rest == length_rest == start_rest == 0:
        return number(first, 4)
    first += 1 << 14
    if not is_full and part_rest <= 2047 and length_rest <= 1023 and start_rest <= 1023:
        return number(first, 4) + number(2 * part_rest + (length_rest << 12) + (start_rest << 22), 4)
    rests = part_rest + (length_rest << 24) + (start_rest << 48)
    return number(first, 4) + number(2 * (rests >> 32) + 1, 4) + number(rests % (1 << 32), 4)


def reference_bytes(index, tag):
    """A reference to a symbol."""
    if index < 64:
        return number(4 * index + tag, 1)
    first = 4 * (index % 64) + 2 + tag
    if index < 8192:
        return number(first, 1) + number(2 * (index // 64), 1)
    return number(first, 1) + number(2 * (index // 64 % 128) + 1, 1) + number(index // 8192, 2)


class Stored:
    """The bytes of a tree, by its tables."""

    def __init__(self, top):
        self.top, self.part_count = top, len(part_table(top)) - 2
        self.parts = {part: index for index, part in enumerate(part_table(top)[:-2])}
        self.symbols = {symbol: index for index, symbol in enumerate(symbol_table(top))}

    def span(self, span, extra):
        """The bytes of a span."""
        return span_bytes(self.parts[span.part()], span.start, span.end - span.start, extra)

    def punct(self, punct):
        """The bytes of a punct."""
        code = ord(punct.char)
        if code >= 128:
            return self.span(punct.span, 0) + number(6 + 8 * SPACINGS.index(punct.spacing), 1) + number(code, 4)
        if punct.spacing == "hidden":
            return self.span(punct.span, 3) + number(2 * code, 1)
        return self.span(punct.span, 1) + number(2 * code + SPACINGS.index(punct.spacing), 1)

    def literal(self, literal):
        """The bytes of a literal."""
        kind, _, hashes = literal.kind.partition(":")
        if literal.suffix_len <= 15 and literal.kind in SHORT_LITERALS:
            form = number(SHORT_LITERALS[literal.kind] + 16 * literal.suffix_len, 1)
        else:
            form = number(7 + 8 * LITERAL_KINDS.index(kind), 1)
            form += (number(int(hashes), 1) if hashes else b"") + number(literal.suffix_len, 1)
        return self.span(literal.span, 0) + form + reference_bytes(self.symbols[literal.text], 0)

    def header(self, subtree, byte_count):
        """The bytes of a header over so many bytes."""
        kind, count = DELIMITER_KINDS.index(subtree.kind), size(subtree.children)
        opening, closing = subtree.open_span, subtree.close
        length, other = opening.end - opening.start, closing.end - closing.start
        distance = closing.start - opening.start
        part, close_part = self.parts[opening.part()], self.parts[closing.part()]
        is_short = kind <= 3 and count <= 255 and length == other
        if is_short and part == close_part and byte_count <= 255 and length == 1 and 0 <= distance <= 2047:
            front = span_bytes(part, opening.start, distance % 256, 0)
            return front + number(8 * kind + 32 * (distance // 256), 1) + number(count, 1) + number(byte_count, 1)
        front = self.span(opening, 0)
        if is_short and part == close_part and byte_count <= 255 and 0 <= distance <= 7:
            return front + number(1 + 8 * kind + 32 * distance, 1) + number(count, 1) + number(byte_count, 1)
        if is_short and byte_count <= 4095 and 0 <= distance <= 255 and close_part <= 127:
            front += number(2 + 8 * kind + 32 * (close_part % 8), 1) + number(distance, 1) + number(count, 1)
            return front + number(16 * byte_count + close_part // 8, 2)
        return front + number(5 + 8 * kind, 1) + self.span(closing, 0) + number(count, 4) + number(byte_count, 4)

    def below(self, trees):
        """The bytes of trees."""
        return b"".join(self.tree(tree) for tree in trees)

    def tree(self, tree):
        """The bytes of a tree."""
        if isinstance(tree, Punct):
            return self.punct(tree)
        if isinstance(tree, Ident):
            return self.span(tree.span, 2) + reference_bytes(self.symbols[tree.text], int(tree.raw == "raw"))
        if isinstance(tree, Literal):
            return self.literal(tree)
        below = self.below(tree.children)
        return self.header(tree, len(below)) + below

    def all(self):
        """The bytes of the whole tree."""
        top, below = self.top, self.below(self.top.children)
        opening, closing = (
            span_bytes(self.part_count + place, span.start, span.end - span.start, 0, True)
            for place, span in enumerate((top.open_span, top.close))
        )
        kind = number(5 + 8 * DELIMITER_KINDS.index(top.kind), 1)
        return opening + kind + closing + number(size(top.children), 4) + number(len(below), 4) + below
