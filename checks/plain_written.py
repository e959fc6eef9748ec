"""Trees as Rust text (docs/CONSOLE.md): which leaves can be written, and what is written of them.

What a leaf's text reads as is asked of plain_text.py.
"""
from plain_text import Wrong, token
from plain_trees import ENDS, Ident, Literal, Punct, Subtree, leaf_text, size

QUOTE = "'"


class NotWritable(Exception):
    """A leaf that cannot be written, by its flat place."""


def read_alone(text):
    """The trees of a text that is one token; None if it is none."""
    try:
        end, trees = token(lambda start, end: None, text, 0) if text else (0, [])
    except Wrong:
        return None
    return trees if text and end == len(text) else None


def same_leaf(tree, leaf):
    """Whether a tree that was read is the leaf, its place and its spacing put aside."""
    if isinstance(leaf, Punct):
        return isinstance(tree, Punct) and tree.char == leaf.char
    return not isinstance(tree, Subtree) and tree == leaf._replace(span=None)


def reads_as_itself(leaf):
    """Whether the leaf's text is one token that is the leaf."""
    trees = read_alone(leaf_text(leaf))
    return trees is not None and len(trees) == 1 and same_leaf(trees[0], leaf)


def is_lifetime(leaf):
    """Whether a quote and the leaf are a lifetime."""
    return isinstance(leaf, Ident) and len(read_alone(QUOTE + leaf_text(leaf)) or ()) == 2


def shown(trees):
    """The trees, each invisible subtree replaced by what it holds."""
    for tree in trees:
        if isinstance(tree, Subtree) and tree.kind == "invisible":
            yield from shown(tree.children)
        else:
            yield tree


def marks(trees, place):
    """The leaves with their flat places, and the brackets."""
    for tree in trees:
        if not isinstance(tree, Subtree):
            yield place, tree
            place += 1
            continue
        several = len(list(shown(tree.children))) > 1
        opening, closing = ENDS["paren" if tree.kind == "opaque" and several else tree.kind]
        if opening:
            yield None, opening
        yield from marks(tree.children, place + 1)
        if closing:
            yield None, closing
        place += size((tree,))


def may_follow(before, leaf):
    """Whether the leaf may be right behind that punct, with which it would be a comment, or no token."""
    if before.char == QUOTE:
        return is_lifetime(leaf)
    joined = before.char + leaf.char if isinstance(leaf, Punct) and before.spacing != "alone" else ""
    return joined not in ("//", "/*", "##")


def stands_apart(before, mark):
    """Whether a space is between two marks."""
    if before is None or before in ("(", "{", "[") or mark in (")", "}", "]"):
        return False
    if isinstance(before, Punct) and (before.char == QUOTE or before.spacing != "alone"):
        is_string = isinstance(mark, Literal) and mark.kind in ("str", "err")
        return before.char == "#" and is_string
    return True


def written(trees):
    """The Rust text of trees."""
    text, before, last = "", None, 0
    for place, mark in [*marks(trees, 0), (None, None)]:
        is_leaf = isinstance(mark, (Punct, Ident, Literal))
        if isinstance(before, Punct):
            fits = may_follow(before, mark) if is_leaf else before.char != QUOTE
            if not fits:
                raise NotWritable(last)
        if is_leaf:
            if not (isinstance(mark, Punct) and mark.char == QUOTE) and not reads_as_itself(mark):
                raise NotWritable(place)
            last = place
        if mark is not None:
            text += " " * stands_apart(before, mark) + (leaf_text(mark) if is_leaf else mark)
            before = mark
    return text
