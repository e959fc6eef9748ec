"""Flat lists of tokens, and the trees that they spell."""
from plain_trees import Subtree


class NotOneSubtree(Exception):
    """A list that spells no subtree, or more."""


class Header(tuple):
    """A header as a list has it: its kind, its spans, and how many tokens it holds."""


def trees_of(items):
    """The trees that leaves and headers spell."""
    trees, place = [], 0
    while place < len(items):
        place += 1
        if not isinstance(items[place - 1], Header):
            trees.append(items[place - 1])
            continue
        kind, open_span, close, length = items[place - 1]
        if place + length > len(items):
            raise NotOneSubtree
        trees.append(Subtree(kind, open_span, close, trees_of(items[place:place + length])))
        place += length
    return tuple(trees)


def one_subtree(trees):
    """The trees, if they are one subtree."""
    if len(trees) != 1 or not isinstance(trees[0], Subtree):
        raise NotOneSubtree
    return trees[0]
