"""Macro rules on plain trees (docs/CONSOLE.md, "Macros")."""
from plain_trees import Ident, Literal, Punct, Subtree

FRAGMENTS = ("ident", "literal", "tt")


class RuleFault(Exception):
    """What is wrong with a rule: its number."""


def is_dollar(tree):
    """Whether a variable or a use may begin there."""
    return isinstance(tree, Punct) and tree.char == "$"


def name_of(tree):
    """What makes a name differ from others, or nothing if there is none."""
    return (tree.raw, tree.text) if isinstance(tree, Ident) and tree.text != "_" else None


def variable_at(trees):
    """The name and the fragment of the variable in front of the trees, or nothing."""
    if len(trees) < 4 or name_of(trees[1]) is None or not isinstance(trees[2], Punct) or trees[2].char != ":":
        return None
    fragment = trees[3]
    if not isinstance(fragment, Ident) or fragment.raw != "plain" or fragment.text not in FRAGMENTS:
        return None
    return name_of(trees[1]), fragment.text


def names_in(pattern, names):
    """The names of the pattern's variables, behind those before it."""
    while pattern:
        if is_dollar(pattern[0]):
            variable = variable_at(pattern)
            if variable is None:
                raise RuleFault(1)
            if variable[0] in names:
                raise RuleFault(3)
            names = names | {variable[0]}
            pattern = pattern[4:]
            continue
        if isinstance(pattern[0], Subtree):
            names = names_in(pattern[0].children, names)
        pattern = pattern[1:]
    return names


def judge_uses(template, names):
    """That each `$` of the template is the use of one of the names."""
    while template:
        if is_dollar(template[0]):
            name = name_of(template[1]) if len(template) > 1 else None
            if name is None:
                raise RuleFault(2)
            if name not in names:
                raise RuleFault(4)
            template = template[2:]
            continue
        if isinstance(template[0], Subtree):
            judge_uses(template[0].children, names)
        template = template[1:]


def takes(fragment, tree):
    """Whether a variable of that fragment takes the tree."""
    if fragment == "ident":
        return name_of(tree) is not None
    if fragment == "literal":
        return isinstance(tree, Literal) or isinstance(tree, Ident) and tree.text in ("true", "false")
    return True


def agree(leaf, other):
    """Whether two leaves are the same but for spans and spacing."""
    if type(leaf) is not type(other):
        return False
    if isinstance(leaf, Punct):
        return leaf.char == other.char
    return leaf._replace(span=None) == other._replace(span=None)


def taken(pattern, trees):
    """What each variable takes, by its name, or nothing if the trees are no instance."""
    found = {}
    while pattern:
        if not trees:
            return None
        if is_dollar(pattern[0]):
            name, fragment = variable_at(pattern)
            if not takes(fragment, trees[0]):
                return None
            found[name] = trees[0]
            pattern, trees = pattern[4:], trees[1:]
            continue
        if isinstance(pattern[0], Subtree):
            if not isinstance(trees[0], Subtree) or trees[0].kind != pattern[0].kind:
                return None
            below = taken(pattern[0].children, trees[0].children)
            if below is None:
                return None
            found.update(below)
        elif not agree(pattern[0], trees[0]):
            return None
        pattern, trees = pattern[1:], trees[1:]
    return None if trees else found


def transcribed(template, found):
    """The template, each use replaced by what was taken."""
    trees = []
    while template:
        if is_dollar(template[0]):
            trees.append(found[name_of(template[1])])
            template = template[2:]
            continue
        if isinstance(template[0], Subtree):
            trees.append(template[0]._replace(children=transcribed(template[0].children, found)))
        else:
            trees.append(template[0])
        template = template[1:]
    return tuple(trees)


def expanded(pattern, template, trees):
    """What the rule makes of the trees, or nothing if they are no instance of the pattern."""
    judge_uses(template, names_in(pattern, frozenset()))
    found = taken(pattern, trees)
    return None if found is None else transcribed(template, found)
