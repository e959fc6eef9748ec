"""A plain tree as one piece of bytes, and the tree of such a piece, or what is wrong with it (docs/FORMATS.md)."""
from plain_lists import Header, NotOneSubtree, one_subtree, trees_of
from plain_stored import (
    DELIMITER_KINDS, LITERAL_KINDS, SHORT_LITERALS, SPACINGS, Stored, number, part_table, symbol_table,
)
from plain_trees import Ident, Literal, Punct, Span

MARK = b"tt\x01\x00"
MOST_OFFSET = (1 << 32) - 1
RAW_KINDS = ("rstr", "rbstr", "rcstr")
# The kinds that have a short form, by its number.
LITERAL_FORMS = {form: kind for kind, form in SHORT_LITERALS.items()}


class WrongBytes(Exception):
    """Bytes of no tree: at which of them that is seen, and what is wrong."""


class NoToken(Exception):
    """No token is here."""


def piece(top):
    """The bytes of a tree."""
    parts, symbols, packed = part_table(top), [text.encode() for text in symbol_table(top)], Stored(top).all()
    counts = b"".join(number(len(counted), 4) for counted in (parts, symbols, packed))
    table = b"".join(number(value, 4) for part in parts for value in part)
    texts = b"".join(number(len(text), 4) + text for text in symbols)
    return MARK + counts + table + texts + packed


class Reader:
    """Reads from the front of some bytes, whose first one has that place among all."""

    def __init__(self, data, place, short):
        self.data, self.first, self.place, self.short = data, place, 0, short

    def is_done(self):
        """Whether nothing is left."""
        return self.place == len(self.data)

    def here(self):
        """The place of the next byte among all."""
        return self.first + self.place

    def take(self, count):
        """The next so many bytes."""
        if self.place + count > len(self.data):
            raise self.short
        self.place += count
        return self.data[self.place - count:self.place]

    def number(self, count=4):
        """A number of so many bytes."""
        return int.from_bytes(self.take(count), "little")


def symbol(reader):
    """A symbol, whose text has to be UTF-8."""
    data = reader.take(reader.number())
    try:
        return data.decode()
    except UnicodeDecodeError as wrong:
        raise WrongBytes(reader.here() - len(data) + wrong.start, "no text") from None


class Tokens(Reader):
    """The tokens that packed bytes spell, whatever these are."""

    def __init__(self, packed, place, parts, symbols):
        super().__init__(packed, place, NoToken())
        self.parts, self.symbols = parts, symbols

    def token(self):
        """The next token."""
        extra, numbers = self.numbers()
        if extra == 0:
            return self.plain(numbers)
        if extra == 2:
            text, tag = self.reference()
            return Ident("raw" if tag else "plain", self.span(*numbers), text)
        byte = self.number(1)
        return Punct("hidden" if extra == 3 else SPACINGS[byte % 2], self.span(*numbers), chr(byte // 2))

    def numbers(self):
        """The extra bits of a span, and its part, its start and its length."""
        first = self.number()
        part = length = start = 0
        if first >> 14 & 1:
            second = self.number()
            if second & 1:
                rests = (second >> 1 << 32) + self.number()
                part, length, start = rests & 0xFFFFFF, rests >> 24 & 0xFFFFFF, rests >> 48
            else:
                part, length, start = second >> 1 & 2047, second >> 12 & 1023, second >> 22
        return first & 3, (part * 16 + (first >> 2 & 15), start * 131072 + (first >> 15), length * 256 + (first >> 6 & 255))

    def span(self, part, start, length):
        """The span of these numbers."""
        if part >= len(self.parts) or start + length > MOST_OFFSET:
            raise NoToken
        file, ast, context = self.parts[part]
        return Span(file, ast, start, start + length, context)

    def reference(self):
        """The text of a symbol, and the tag."""
        first = self.number(1)
        index = first >> 2
        if first & 2:
            second = self.number(1)
            index += (second >> 1) * 64
            if second & 1:
                index += self.number(2) * 8192
        if index >= len(self.symbols):
            raise NoToken
        return self.symbols[index], first & 1

    def plain(self, numbers):
        """What follows a span without extra bits."""
        control = self.number(1)
        form, high = control % 8, control // 8
        if form in (0, 1, 2, 5):
            return Header(self.header(form, high, *numbers))
        if form == 6:
            code = self.number()
            if high >= len(SPACINGS) or code >= 0x110000 or 0xD800 <= code < 0xE000:
                raise NoToken
            return Punct(SPACINGS[high], self.span(*numbers), chr(code))
        if form == 7:
            kind = self.at(LITERAL_KINDS, high)
            if kind in RAW_KINDS:
                kind += f":{self.number(1)}"
            return self.literal(kind, self.number(1), numbers)
        return self.literal(LITERAL_FORMS[control % 16], control // 16, numbers)

    def at(self, values, index):
        """The value of that number."""
        if index >= len(values):
            raise NoToken
        return values[index]

    def literal(self, kind, suffix_len, numbers):
        """A literal, whose suffix begins at a character."""
        text, _ = self.reference()
        data = text.encode()
        if suffix_len > len(data) or suffix_len > 0 and data[-suffix_len] & 0xC0 == 0x80:
            raise NoToken
        return Literal(kind, suffix_len, self.span(*numbers), text)

    def header(self, form, high, part, start, length):
        """The kind of a header, its spans and its count; how many bytes it counts does not matter here."""
        if form == 5:
            kind = self.at(DELIMITER_KINDS, high)
            _, closing = self.numbers()
            count, _ = self.number(), self.number()
            return kind, self.span(part, start, length), self.span(*closing), count
        kind, distance, close_part = DELIMITER_KINDS[high % 4], high // 4, part
        if form == 0:
            distance, length = distance * 256 + length, 1
        if form == 2:
            distance = self.number(1)
        count = self.number(1)
        if form == 2:
            close_part = high // 4 + self.number(2) % 16 * 8
        else:
            self.number(1)
        return kind, self.span(part, start, length), self.span(close_part, start + distance, length), count

    def all(self):
        """All tokens, up to the first place without one."""
        tokens = []
        while not self.is_done():
            place = self.here()
            try:
                tokens.append(self.token())
            except NoToken:
                raise WrongBytes(place, "no tree") from None
        return tokens


def behind_mark(data):
    """A reader behind the mark."""
    for place, (wanted, byte) in enumerate(zip(MARK, data)):
        if wanted != byte:
            raise WrongBytes(place, "another format")
    reader = Reader(data, 0, WrongBytes(len(data), "too short"))
    reader.take(len(MARK))
    return reader


def tree_of_piece(data):
    """The tree whose bytes these are."""
    reader = behind_mark(data)
    part_count, symbol_count, byte_count = (reader.number() for _ in range(3))
    parts = [tuple(reader.number() for _ in range(3)) for _ in range(part_count)]
    symbols = [symbol(reader) for _ in range(symbol_count)]
    place = reader.here()
    tokens = Tokens(reader.take(byte_count), place, parts, symbols).all()
    try:
        tree = one_subtree(trees_of(tokens))
    except NotOneSubtree:
        raise WrongBytes(reader.here(), "no tree") from None
    again = piece(tree)
    if again != data:
        alike = next((place for place, pair in enumerate(zip(again, data)) if pair[0] != pair[1]), min(len(again), len(data)))
        raise WrongBytes(alike, "stored otherwise")
    return tree
