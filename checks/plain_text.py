"""A Rust text as token trees (docs/CONSOLE.md), read in the plainest way, by characters.

A text is cut into tokens from left to right, and the first thing that is wrong with one ends it. Nothing here knows
where the program's own reader cuts.
"""
import re
import unicodedata

from plain_trees import Ident, Literal, Punct, Span, Subtree

BLANKS = "\t\n\v\f\r \x85\u200e\u200f\u2028\u2029"
PUNCTS = "=<>!&|~@.,;:#$?+-*/%^"
OPENS = {"(": "paren", "{": "brace", "[": "bracket"}
CLOSES = {")": "(", "}": "{", "]": "["}
DECIMAL, HEXADECIMAL = "0123456789", "0123456789abcdefABCDEF"
SIMPLE_ESCAPES = "nrt\\'\""
# How a literal in quotes begins, its kind, and whether it is raw.
QUOTED = (
    ('br', "rbstr", True), ('cr', "rcstr", True), ('r', "rstr", True), ("b'", "byte", False), ('b"', "bstr", False),
    ('c"', "cstr", False), ('"', "str", False),
)
MOST_HASHES = 255
MOST_SUFFIX_BYTES = 255
NEVER_RAW = ("_", "crate", "self", "super", "Self")


class WrongText(Exception):
    """What is wrong with a text, and at which byte."""


class Wrong(Exception):
    """What is wrong with a token."""


def begins_name(char):
    """Whether a name may begin so."""
    return char.isidentifier()


def goes_on(char):
    """Whether a name may go on so."""
    return char != "" and ("a" + char).isidentifier()


def is_emoji(char):
    """Whether it is an emoji beyond ASCII: of those that scripts have."""
    return char != "" and ord(char) > 0x2000 and unicodedata.category(char) == "So"


def name_end(text, at):
    """Where a name that begins there ends."""
    while at < len(text) and goes_on(text[at]):
        at += 1
    return at


def suffix_end(text, at):
    """Where the suffix ends, if one begins there."""
    return name_end(text, at) if begins_name(text[at:at + 1]) else at


def digits_end(text, at, digits):
    """Where digits and underscores end."""
    while at < len(text) and text[at] in digits + "_":
        at += 1
    return at


def has_digit(text, at, end, digits):
    """Whether a digit is there, and not underscores alone."""
    return any(char in digits for char in text[at:end])


def check_returns(inside):
    """No carriage return without a line feed behind it."""
    if re.search("\r(?!\n)", inside):
        raise Wrong("bare carriage return")


def unit_end(kind, inside, at):
    """Where a character or an escape ends that begins there."""
    single = kind in ("char", "byte")
    if inside[at] != "\\":
        if single and inside[at] in "'\n\r\t":
            raise Wrong("character that wants an escape")
        if kind == "cstr" and inside[at] == "\0":
            raise Wrong("null in a C string")
        return at + 1
    sign, value = inside[at + 1:at + 2], None
    if sign and sign in SIMPLE_ESCAPES:
        return at + 2
    if sign == "0":
        value, end = 0, at + 2
    elif sign == "x":
        digits = inside[at + 2:at + 4]
        if len(digits) < 2 or any(digit not in HEXADECIMAL for digit in digits):
            raise Wrong("escape without two digits")
        value, end = int(digits, 16), at + 4
        if value > 0x7f and kind in ("char", "str"):
            raise Wrong("escape beyond 7f")
    elif sign == "u" and kind not in ("byte", "bstr"):
        found = re.compile(r"\{([0-9a-fA-F](?:_*[0-9a-fA-F]){0,5}_*)\}").match(inside, at + 2)
        value = int(found[1].replace("_", ""), 16) if found else 0x110000
        if value > 0x10ffff or 0xd800 <= value <= 0xdfff:
            raise Wrong("escape of no character")
        end = found.end()
    elif sign and sign in "\n\r" and not single:
        return at + 2
    else:
        raise Wrong("unknown escape")
    if kind == "cstr" and value == 0:
        raise Wrong("null in a C string")
    return end


def check_inside(kind, inside):
    """The text between the quotes of a literal that is not raw and has no suffix."""
    at = count = 0
    while at < len(inside):
        at, count = unit_end(kind, inside, at), count + 1
    if kind in ("char", "byte") and count != 1:
        raise Wrong("several characters" if count else "empty character")


def check_quoted(kind, inside):
    """The text between quotes."""
    if kind in ("byte", "bstr", "rbstr") and not inside.isascii():
        raise Wrong("character beyond ASCII")
    check_returns(inside)
    if not kind.startswith("r"):
        check_inside(kind, inside)
    elif kind == "rcstr" and "\0" in inside:
        raise Wrong("null in a C string")


def literal(span_of, text, start, end, kind, value):
    """A literal with the suffix that begins at its end."""
    behind = suffix_end(text, end)
    suffix = text[end:behind]
    if suffix == "_":
        suffix = ""
    if kind in ("int", "float") and len(suffix.encode()) > MOST_SUFFIX_BYTES:
        raise Wrong("suffix too long")
    if suffix and kind not in ("int", "float"):
        return behind, [Literal("err", 0, span_of(start, behind), text[start:behind])]
    return behind, [Literal(kind, len(suffix.encode()), span_of(start, behind), value + suffix)]


def quoted(span_of, text, start, kind, opening, quote):
    """A literal in quotes, behind which an escape takes the next character along."""
    at = opening
    while text[at:at + 1] != quote:
        if at >= len(text):
            raise Wrong("unterminated literal")
        at += 2 if text[at] == "\\" else 1
    check_quoted(kind, text[opening:at])
    return literal(span_of, text, start, at + 1, kind, text[opening:at])


def raw(span_of, text, start, kind, at):
    """A raw literal, whose hashes begin there."""
    hashes = len(text) - at - len(text[at:].lstrip("#"))
    opening = at + hashes + 1
    closing = '"' + "#" * hashes
    end = text.find(closing, opening)
    if text[opening - 1:opening] != '"':
        raise Wrong("raw literal without a quote")
    if hashes > MOST_HASHES:
        raise Wrong("too many hashes")
    if end < 0:
        raise Wrong("unterminated literal")
    check_quoted(kind, text[opening:end])
    return literal(span_of, text, start, end + len(closing), f"{kind}:{hashes}", text[opening:end])


def exponent_end(text, at):
    """The end of the exponent whose `e` is there."""
    digits = at + 2 if text[at + 1:at + 2] in ("+", "-") else at + 1
    end = digits_end(text, digits, DECIMAL)
    if not has_digit(text, digits, end, DECIMAL):
        raise Wrong("empty exponent")
    return end


def number(span_of, text, start):
    """A number."""
    base = {"0b": 2, "0o": 8, "0x": 16}.get(text[start:start + 2], 10)
    digits = HEXADECIMAL if base == 16 else DECIMAL
    first = start if base == 10 else start + 2
    end = digits_end(text, first, digits)
    if not has_digit(text, first, end, digits):
        raise Wrong("no digits")
    kind, next_char = "int", text[end + 1:end + 2]
    if text[end:end + 1] == "." and next_char != "." and not begins_name(next_char):
        kind, point = "float", end
        end += 1
        if next_char and next_char in DECIMAL:
            end = digits_end(text, end, DECIMAL)
        if end == point + 1 or text[end:end + 1] not in ("e", "E"):
            pass
        else:
            end = exponent_end(text, end)
    elif text[end:end + 1] in ("e", "E"):
        kind, end = "float", exponent_end(text, end)
    if kind == "float" and base != 10:
        raise Wrong("float of another base")
    if base < 10 and any(digit in DECIMAL[base:] for digit in text[start:end]):
        raise Wrong("digit of another base")
    return literal(span_of, text, start, end, kind, text[start:end])


def apostrophe(span_of, text, start):
    """A lifetime, or a literal of a character."""
    first, second = text[start + 1:start + 2], text[start + 2:start + 3]
    is_number = first != "" and first in DECIMAL
    if second == "'" or not begins_name(first) and not is_number:
        return character(span_of, text, start)
    if first == "r" and second == "#" and begins_name(text[start + 3:start + 4]):
        return lifetime(span_of, start, name_end(text, start + 3), "raw", text)
    end = name_end(text, start + 2)
    if text[end:end + 1] == "'":
        check_quoted("char", text[start + 1:end])
        return literal(span_of, text, start, end + 1, "char", text[start + 1:end])
    if text[end:end + 1] == "#" and not is_number:
        raise Wrong("unknown prefix")
    if is_number:
        raise Wrong("lifetime that begins with a digit")
    return lifetime(span_of, start, end, "plain", text)


def lifetime(span_of, start, end, is_raw, text):
    """A quote and a name."""
    name = start + 3 if is_raw == "raw" else start + 1
    if is_raw == "raw":
        check_raw(text[name:end])
    return end, [Punct("joint", span_of(start, start + 1), "'"), Ident(is_raw, span_of(start + 1, end), text[name:end])]


def character(span_of, text, start, kind="char", opening=None):
    """A literal of one character. It ends at a line feed and before a slash, if it is not closed."""
    opening = start + 1 if opening is None else opening
    at = opening
    if text[at + 1:at + 2] == "'" and text[at] != "\\":
        at += 1
    else:
        while text[at:at + 1] != "'":
            char = text[at:at + 1]
            if char in ("", "/") or char == "\n" and text[at + 1:at + 2] != "'":
                raise Wrong("unterminated literal")
            at += 2 if char == "\\" else 1
    check_quoted(kind, text[opening:at])
    return literal(span_of, text, start, at + 1, kind, text[opening:at])


def comment_end(text, start):
    """Where a comment between signs ends."""
    depth = 0
    for sign in re.finditer(r"/\*|\*/", text[start:]):
        depth += 1 if sign[0] == "/*" else -1
        if depth == 0:
            return start + sign.end()
    raise Wrong("unterminated comment")


def comment(span_of, text, start):
    """A comment, which is an attribute if it documents something."""
    is_line = text[start + 1] == "/"
    if is_line:
        end = text.find("\n", start) % (len(text) + 1)
        inner, outer = text.startswith("//!", start), re.compile("///(?!/)").match(text, start)
        inside = text[start + 3:end]
    else:
        end = comment_end(text, start)
        inner, outer = text.startswith("/*!", start), re.compile(r"/\*\*(?![*/])").match(text, start)
        inside = text[start + 3:end - 2]
    if not inner and not outer:
        return end, []
    if is_line:
        # It belongs to the end of the line.
        inside = inside.removesuffix("\r")
    check_returns(inside)
    span = span_of(start, end)
    hashes = max((len(run) for run in re.findall('"#*', inside)), default=0)
    if hashes > MOST_HASHES:
        raise Wrong("too many hashes")
    attribute = (Ident("plain", span, "doc"), Punct("alone", span, "="), Literal(f"rstr:{hashes}", 0, span, inside))
    marks = [Punct("alone", span, char) for char in ("#!" if inner else "#")]
    return end, [*marks, Subtree("bracket", span, span, attribute)]


def check_raw(name):
    """A name behind `r#`."""
    if name in NEVER_RAW:
        raise Wrong("name that is never raw")


def word(span_of, text, start):
    """A name."""
    if text.startswith("r#", start) and begins_name(text[start + 2:start + 3]):
        end = name_end(text, start + 2)
        check_raw(text[start + 2:end])
        return end, [Ident("raw", span_of(start, end), text[start + 2:end])]
    end = name_end(text, start)
    if text[end:end + 1] in ('"', "'", "#"):
        raise Wrong("unknown prefix")
    if is_emoji(text[end:end + 1]):
        raise Wrong("invalid identifier")
    return end, [Ident("plain", span_of(start, end), text[start:end])]


def token(span_of, text, start):
    """Where the token ends that begins there, and the trees that it is; of a bracket none."""
    char, two = text[start], text[start:start + 2]
    if char in BLANKS:
        return start + 1, []
    if two in ("//", "/*"):
        return comment(span_of, text, start)
    is_raw_name = two == "r#" and begins_name(text[start + 2:start + 3])
    for opening, kind, is_raw in () if is_raw_name else QUOTED:
        behind = start + len(opening)
        if not text.startswith(opening, start) or is_raw and text[behind:behind + 1] not in ('"', "#"):
            continue
        if is_raw:
            return raw(span_of, text, start, kind, behind)
        if kind == "byte":
            return character(span_of, text, start, kind, behind)
        return quoted(span_of, text, start, kind, behind, '"')
    if begins_name(char):
        return word(span_of, text, start)
    if char in DECIMAL:
        return number(span_of, text, start)
    if char == "'":
        return apostrophe(span_of, text, start)
    if two in ('#"', "##"):
        raise Wrong("guarded prefix")
    if is_emoji(char):
        raise Wrong("invalid identifier")
    if char not in PUNCTS + "".join(OPENS) + "".join(CLOSES):
        raise Wrong("unknown character")
    return start + 1, [Punct("alone", span_of(start, start + 1), char)] if char in PUNCTS else []


def is_joint(text, at):
    """Whether a punct or a lifetime begins there."""
    char, two = text[at:at + 1], text[at:at + 2]
    if char == "'":
        try:
            return len(apostrophe(lambda *_: None, text, at)[1]) == 2
        except Wrong as wrong:
            return str(wrong) == "lifetime that begins with a digit"
    return char != "" and char in PUNCTS and two not in ("//", "/*", '#"', "##")


def tree_of_text(text):
    """The tree of a text of file 0, item 0 and context 0, under an invisible top."""
    places = [0]
    for char in text:
        places.append(places[-1] + len(char.encode()))

    def span_of(start, end):
        return Span(0, 0, places[start], places[end], 0)

    at, levels, opened = 0, [[]], []
    while at < len(text):
        char = text[at]
        try:
            end, trees = token(span_of, text, at)
        except Wrong as wrong:
            raise WrongText(places[at], wrong) from wrong
        if end == at + 1 and not trees and char in OPENS:
            opened.append((char, at))
            levels.append([])
        elif end == at + 1 and not trees and char in CLOSES:
            if not opened:
                raise WrongText(places[at], f"unopened {char}")
            opening, place = opened.pop()
            if opening != CLOSES[char]:
                raise WrongText(places[at], f"{char} for {opening} at {places[place]}")
            children = tuple(levels.pop())
            levels[-1].append(Subtree(OPENS[opening], span_of(place, place + 1), span_of(at, end), children))
        elif len(trees) == 1 and isinstance(trees[0], Punct) and is_joint(text, end):
            levels[-1].append(trees[0]._replace(spacing="joint"))
        else:
            levels[-1] += trees
        at = end
    if opened:
        opening, place = opened[-1]
        raise WrongText(places[place], f"unclosed {opening}")
    return Subtree("invisible", span_of(0, 0), span_of(at, at), tuple(levels[0]))
