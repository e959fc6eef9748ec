"""Token trees as plain values, and how they are shown (docs/CONSOLE.md, docs/FORMATS.md).

A tree is a leaf or a Subtree; trees are a tuple of them. Nothing here is ever changed in place.
"""
from typing import NamedTuple


class Span(NamedTuple):
    """Where a token comes from."""

    file: int
    ast: int
    start: int
    end: int
    context: int

    def __str__(self):
        return f"{self.file}:{self.ast}@{self.start}..{self.end}#{self.context}"

    def part(self):
        """All but the range."""
        return self.file, self.ast, self.context


class Punct(NamedTuple):
    """One character. Its spacing is `alone`, `joint` or `hidden`."""

    spacing: str
    span: Span
    char: str


class Ident(NamedTuple):
    """A name, `plain` or `raw`."""

    raw: str
    span: Span
    text: str


class Literal(NamedTuple):
    """A text of which the last bytes are the suffix. A raw kind has its hashes behind a colon."""

    kind: str
    suffix_len: int
    span: Span
    text: str


class Subtree(NamedTuple):
    """A delimiter, and the trees in it."""

    kind: str
    open_span: Span
    close: Span
    children: tuple


# What opens a subtree in text, and what closes it.
ENDS = {"paren": ("(", ")"), "brace": ("{", "}"), "bracket": ("[", "]"), "invisible": ("", ""), "opaque": ("", "")}
# The text in front of a literal's text in Display; with hashes if it is raw.
OPENING = {
    "int": "", "float": "", "err": "", "byte": "b'", "char": "'", "str": '"', "bstr": 'b"', "cstr": 'c"',
    "rstr": "r", "rbstr": "br", "rcstr": "cr",
}
KIND_NAMES = {
    "int": "Integer", "float": "Float", "err": "Err(())", "byte": "Byte", "char": "Char", "str": "Str",
    "bstr": "ByteStr", "cstr": "CStr", "rstr": "StrRaw", "rbstr": "ByteStrRaw", "rcstr": "CStrRaw",
}
THREE = {"...", "..=", "<<=", ">>="}
TWO = set("-= != *= /= &= %= ^= += <= == >= |= -> => >> <- :: .. && << ||".split())


def size(trees):
    """How many tokens the trees have, at any depth."""
    return sum(1 + size(tree.children) if isinstance(tree, Subtree) else 1 for tree in trees)


def flat(trees):
    """The tokens of the trees, each subtree before what it holds."""
    for tree in trees:
        yield tree
        if isinstance(tree, Subtree):
            yield from flat(tree.children)


def leaf_words(leaf):
    """A leaf as the language spells it."""
    if isinstance(leaf, Punct):
        return f"punct {leaf.spacing} {leaf.span} {leaf.char}"
    if isinstance(leaf, Ident):
        return f"ident {leaf.raw} {leaf.span} {leaf.text}"
    return f"lit {leaf.kind} {leaf.suffix_len} {leaf.span} {leaf.text}"


def header_words(kind, open_span, close, length):
    """A header as the language spells it."""
    return f"sub {kind} {open_span} {close} {length}"


def token_words(tree):
    """The tree's first token as the language spells it."""
    if isinstance(tree, Subtree):
        return header_words(tree.kind, tree.open_span, tree.close, size(tree.children))
    return leaf_words(tree)


def literal_text(literal):
    """A literal in the quotes of its kind, and then its suffix."""
    text = literal.text.encode()
    split = len(text) - literal.suffix_len
    kind, _, hashes = literal.kind.partition(":")
    opening = OPENING[kind]
    if hashes:
        opening += "#" * int(hashes) + '"'
    closing = opening.lstrip("bcr")[::-1]
    return opening + text[:split].decode() + closing + text[split:].decode()


def leaf_text(leaf):
    """Display of a leaf."""
    if isinstance(leaf, Punct):
        return leaf.char
    if isinstance(leaf, Ident):
        return ("r#" if leaf.raw == "raw" else "") + leaf.text
    return literal_text(leaf)


def text_of(trees, glued):
    """The trees on one line. A punct with one of those spacings lets no space follow."""
    text = ""
    for place, tree in enumerate(trees):
        if isinstance(tree, Subtree):
            opening, closing = ENDS[tree.kind]
            text += opening + text_of(tree.children, glued) + closing
        else:
            text += leaf_text(tree)
        if place + 1 < len(trees) and not (isinstance(tree, Punct) and tree.spacing in glued):
            text += " "
    return text


def debug_line(tree):
    """The line of Debug of the tree's first token."""
    if isinstance(tree, Subtree):
        return f"SUBTREE {''.join(ENDS[tree.kind]) or '$$'} {tree.open_span} {tree.close}"
    if isinstance(tree, Punct):
        return f"PUNCH   {tree.char} [{'alone' if tree.spacing == 'alone' else 'joint'}] {tree.span}"
    if isinstance(tree, Ident):
        return f"IDENT   {leaf_text(tree)} {tree.span}"
    kind, _, hashes = tree.kind.partition(":")
    return f"LITERAL {KIND_NAMES[kind]}{f'({hashes})' if hashes else ''} {tree.text} {tree.span}"


def debug_lines(trees, depth=0):
    """The lines of Debug, each level two spaces further in."""
    for tree in trees:
        yield "  " * depth + debug_line(tree)
        if isinstance(tree, Subtree):
            yield from debug_lines(tree.children, depth + 1)


def walk(trees):
    """The places of a walk: a token, or the end of a subtree."""
    for tree in trees:
        yield token_words(tree)
        if isinstance(tree, Subtree):
            yield from walk(tree.children)
            yield "close"


def alone(trees):
    """The trees, of which the last token is alone if it is a punct."""
    *front, last = trees
    if isinstance(last, Punct):
        last = last._replace(spacing="alone")
    elif isinstance(last, Subtree) and last.children:
        last = last._replace(children=alone(last.children))
    return (*front, last)


def glued_front(trees):
    """How many puncts at the front of the trees are one operator."""
    first, second, third = (trees + (None, None))[:3]
    if first.spacing == "alone" or not isinstance(second, Punct):
        return 1
    if second.spacing == "joint" and isinstance(third, Punct) and first.char + second.char + third.char in THREE:
        return 3
    return 2 if first.char + second.char in TWO else 1


def glued_sizes(trees):
    """How many puncts each operator has, one after another, and an x for each tree that is none."""
    while trees:
        count = glued_front(trees) if isinstance(trees[0], Punct) else 1
        yield str(count) if isinstance(trees[0], Punct) else "x"
        trees = trees[count:]


def piece_sizes(trees, char):
    """How many tokens are in each piece between puncts of that character."""
    sizes = [0]
    for tree in trees:
        if isinstance(tree, Punct) and tree.char == char:
            sizes.append(0)
        else:
            sizes[-1] += size((tree,))
    return map(str, sizes)
