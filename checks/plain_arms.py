"""Macros of several arms on plain trees (docs/CONSOLE.md, "Macros of several arms").

Trees are read as units, patterns and templates as parts of plain_macros.py, which answers what a macro makes of an input; that is then
trees again. plain_grammar.py answers how far a fragment of Rust's grammar reaches.
"""
import plain_grammar
import plain_macros
from plain_trees import Ident, Literal, Punct, Subtree, alone, glued_front

# Brute force takes inputs of so many units at most, at any depth.
MOST_UNITS = 16
BRACKETS = {"paren": "(", "brace": "{", "bracket": "[", "invisible": "invisible", "opaque": "opaque"}
# Precedes the text of a raw ident; no text of a tree has it, since a line has none.
RAW = "\n"
FRAGMENTS = ("ident", "literal", "lifetime", "block", "vis", "tt", *plain_grammar.FRAGMENTS)
# What these took comes as one opaque subtree, if it is more than one token or subtree.
GROUPED = ("expr", "expr_2021", "ty", "pat", "pat_param", "literal")
# The numbers of what may be wrong with an arm, or with filling its template.
NO_PATTERN, BEGINS_NOTHING, UNKNOWN_FRAGMENT, NAME_TWICE, NEEDLESS_SEPARATOR = 1, 2, 3, 5, 6
EMPTY_REPETITION, NO_ARROW, NO_TEMPLATE, STILL_REPEATS, NOTHING_REPEATS, NO_SEMICOLON = range(7, 13)


# Why a template is not filled that has a number, and that number.
REPEATS = (("still repeats", STILL_REPEATS), ("nothing repeats", NOTHING_REPEATS))


class ArmFault(Exception):
    """What is wrong with a macro, or with filling a template: the number of the arm, and that of the fault."""


class TooManyUnits(Exception):
    """An input that is too long for brute force."""


class Unit(tuple):
    """A unit of plain_macros.py, and the trees that it is."""

    def __new__(cls, unit, trees):
        made = super().__new__(cls, unit)
        made.trees = trees
        return made


class TypeOfOneToken(list):
    """What a type of one token is written as, and the opaque subtree that it becomes before `<`."""

    def __init__(self, units, piece):
        super().__init__(units)
        self.piece = piece


class Input:
    """The units of an input. Places are those of its trees, so that a fragment may end within puncts of one operator."""

    def __init__(self, trees):
        self.trees = trees

    def __len__(self):
        return len(self.trees)

    def __getitem__(self, place):
        if isinstance(place, slice):
            return units_of(self.trees[place])
        trees = self.trees[place:]
        return unit_of(trees[: unit_size(trees)], Input)

    def behind(self, at):
        """Where the unit ends that begins there."""
        return at + unit_size(self.trees[at:])

    def reached(self, fragment, at):
        """The end of what a fragment of Rust's grammar takes; None if it takes nothing."""
        count = plain_grammar.reach(fragment, self.trees[at:])
        return at + count if count else None

    def behind_piece(self, at):
        """The end of an opaque subtree that holds a literal and nothing else; None if no such one is there."""
        unit = self[at]
        if unit[:2] != ("sub", "opaque") or not unit[2]:
            return None
        held = unit[2]
        return at + 1 if plain_macros.literal_end(held[0], held, 0) == len(held) else None

    def bound(self, fragment, at, end):
        """The units that a variable took, or one opaque subtree of them."""
        trees = self.trees[at:end]
        units = units_of(trees)
        if fragment == "ty" and len(units) == 1 and is_ident(trees):
            return TypeOfOneToken(units, piece_of(trees))
        if fragment not in GROUPED or len(units) < 2:
            return units
        return [piece_of(trees)]


def piece_of(trees):
    """The unit of an opaque subtree of these trees."""
    trees = alone(trees)
    return unit_of((Subtree("opaque", first_span(trees[0]), last_span(trees[-1]), trees),))


def first_span(tree):
    """Where a tree begins."""
    return tree.open_span if isinstance(tree, Subtree) else tree.span


def last_span(tree):
    """Where the last token of a tree ends, as a list has them: of a subtree that holds something its closing is none."""
    if not isinstance(tree, Subtree):
        return tree.span
    return last_span(tree.children[-1]) if tree.children else tree.close


def is_punct(trees, chars):
    """Whether a punct of one of those characters is first."""
    return bool(trees) and isinstance(trees[0], Punct) and trees[0].char in chars


def is_ident(trees):
    """Whether an ident is first."""
    return bool(trees) and isinstance(trees[0], Ident)


def unit_size(trees):
    """How many trees at the front are one unit."""
    if is_punct(trees, "'"):
        return 2 if is_ident(trees[1:]) else 1
    return glued_front(trees) if isinstance(trees[0], Punct) else 1


def word(ident):
    """What makes an ident differ from others."""
    return (RAW if ident.raw == "raw" else "") + ident.text


def unit_of(trees, held=None):
    """The unit that these trees are; `held` reads what a subtree holds, otherwise that is units."""
    first = trees[0]
    if isinstance(first, Subtree):
        return Unit(("sub", BRACKETS[first.kind], (held or units_of)(first.children)), trees)
    if isinstance(first, Ident):
        return Unit(("ident", word(first)), trees)
    if isinstance(first, Literal):
        return Unit(("lit", f"{first.kind} {first.suffix_len} {first.text}"), trees)
    if isinstance(trees[-1], Ident):
        return Unit(("life", word(trees[-1])), trees)
    return Unit(("op", "".join(punct.char for punct in trees)), trees)


def units_of(trees):
    """The units of the trees."""
    units = []
    while trees:
        count = unit_size(trees)
        units.append(unit_of(trees[:count]))
        trees = trees[count:]
    return units


def unit_count(units):
    """How many there are, at any depth."""
    return sum(1 + unit_count(unit[2]) if unit[0] == "sub" else 1 for unit in units)


def is_operator(trees):
    """Whether the operator of a repetition is first."""
    return is_punct(trees, "*+?") and unit_size(trees) == 1


def tail(trees):
    """The trees of the separator and the operator of a repetition, if they are first."""
    if is_operator(trees):
        return trees[:0], trees[0].char
    if not trees or isinstance(trees[0], Subtree):
        return None
    count = unit_size(trees)
    return (trees[:count], trees[count].char) if is_operator(trees[count:]) else None


def repetition(trees):
    """What a repetition holds, the trees of its separator, and its operator, if a repetition is behind a `$`."""
    if not trees or not isinstance(trees[0], Subtree) or trees[0].kind != "paren":
        return None
    behind = tail(trees[1:])
    return behind and (trees[0].children, *behind)


def is_crate(trees):
    """Whether `crate` is first."""
    return is_ident(trees) and word(trees[0]) == "crate"


def pattern_part(trees):
    """The first part of a pattern, and how many trees it is. ("wrong", NUMBER) is a `$` that begins nothing."""
    behind = trees[1:]
    if isinstance(trees[0], Subtree):
        return ("sub", BRACKETS[trees[0].kind], pattern_of(trees[0].children)), 1
    if not is_punct(trees, "$"):
        count = unit_size(trees)
        return ("unit", unit_of(trees[:count])), count
    found = repetition(behind)
    if found:
        held, separator, operator = found
        return ("rep", pattern_of(held), unit_of(separator) if separator else None, operator), 3 + len(separator)
    if not behind or is_crate(behind):
        return ("unit", unit_of(trees[:1])), 1
    if not is_ident(behind) or not is_punct(behind[1:], ":") or not is_ident(behind[2:]):
        return ("wrong", BEGINS_NOTHING), 1
    fragment = behind[2].text
    if fragment in FRAGMENTS:
        return ("var", behind[0].text, fragment), 4
    return ("wrong", UNKNOWN_FRAGMENT), 1


def pattern_of(trees):
    """The parts of a pattern."""
    parts = []
    while trees:
        part, count = pattern_part(trees)
        parts.append(part)
        trees = trees[count:]
    return parts


def may_take_nothing(part):
    """Whether the part may take no unit."""
    if part[0] == "rep":
        return part[3] in "*?" or all(map(may_take_nothing, part[1]))
    return part[0] == "var" and part[2] == "vis"


def pattern_fault(parts, names):
    """The first fault of a pattern in reading order, if variables before it have those names; its own are added."""
    for part in parts:
        fault = None
        if part[0] == "wrong":
            fault = part[1]
        elif part[0] == "var":
            fault = NAME_TWICE if part[1] in names else None
            names.add(part[1])
        elif part[0] == "sub":
            fault = pattern_fault(part[2], names)
        elif part[0] == "rep":
            fault = repetition_fault(part) or pattern_fault(part[1], names)
        if fault:
            return fault
    return None


def repetition_fault(part):
    """What is wrong with a repetition, but for what it holds."""
    if part[2] is not None and part[3] == "?":
        return NEEDLESS_SEPARATOR
    return EMPTY_REPETITION if all(map(may_take_nothing, part[1])) else None


def template_part(trees, names):
    """The first part of a template, and how many trees it is. A subtree has itself as its bracket."""
    first, behind = trees[0], trees[1:]
    if isinstance(first, Subtree):
        return ("sub", first, template_of(first.children, names)), 1
    if not is_punct(trees, "$"):
        return ("unit", unit_of(alone(trees[:1]) if is_punct(behind, "$") else trees[:1])), 1
    found = repetition(behind)
    if found:
        held, separator, operator = found
        between = unit_of(alone(separator)) if separator else None
        return ("rep", template_of(held, names), between, operator, None), 3 + len(separator)
    if is_punct(behind, "$"):
        return ("unit", unit_of(behind[:1])), 2
    if is_ident(behind) and not is_crate(behind) and behind[0].text in names:
        return ("use", behind[0].text, None), 2
    return ("unit", unit_of(trees[:1])), 1


def template_of(trees, names):
    """The parts of a template, if the pattern has variables of those names."""
    parts = []
    while trees:
        part, count = template_part(trees, names)
        parts.append(part)
        trees = trees[count:]
    return parts


def dollar_fault(behind):
    """What is wrong with a `$` of a template, before these trees."""
    if not behind or is_ident(behind) or is_punct(behind, "$"):
        return None
    if not isinstance(behind[0], Subtree) or behind[0].kind == "bracket":
        return BEGINS_NOTHING
    if behind[0].kind != "paren":
        return None
    found = repetition(behind)
    if not found:
        return BEGINS_NOTHING
    return NEEDLESS_SEPARATOR if found[1] and found[2] == "?" else None


def template_fault(trees):
    """The first fault of a template, in reading order of its `$`."""
    while trees:
        first, trees = trees[0], trees[1:]
        held, fault = (), None
        if isinstance(first, Subtree):
            held = first.children
        elif is_punct((first,), "$"):
            fault = dollar_fault(trees)
            found = repetition(trees)
            if found:
                held, trees = found[0], trees[2 + len(found[1]):]
            elif is_punct(trees, "$"):
                trees = trees[1:]
        fault = fault or template_fault(held)
        if fault:
            return fault
    return None


def is_arrow(trees):
    """Whether `=>` is first, as one token."""
    return is_punct(trees, "=") and unit_size(trees) == 2 and trees[1].char == ">"


def arm_at(trees, number):
    """The arm of that number, which is first: its pattern, its template, and the trees behind it and its `;`."""
    if not trees or not isinstance(trees[0], Subtree):
        raise ArmFault(number, NO_PATTERN)
    pattern = pattern_of(trees[0].children)
    fault = pattern_fault(pattern, set())
    if fault:
        raise ArmFault(number, fault)
    if not is_arrow(trees[1:]):
        raise ArmFault(number, NO_ARROW)
    if len(trees) < 4 or not isinstance(trees[3], Subtree):
        raise ArmFault(number, NO_TEMPLATE)
    fault = template_fault(trees[3].children)
    if fault:
        raise ArmFault(number, fault)
    template, left = template_of(trees[3].children, set(plain_macros.names_of(pattern))), trees[4:]
    if left and not is_punct(left, ";"):
        raise ArmFault(number, NO_SEMICOLON)
    return pattern, [("sub", trees[3], template)], left[1:]


def arms_of(trees):
    """The arms that trees spell. There is one at least."""
    arms = []
    while trees or not arms:
        pattern, template, trees = arm_at(trees, len(arms))
        arms.append((pattern, template))
    return arms


def placed(units):
    """What a variable took, as it is written: its last token is alone if it is a punct."""
    made = units[:-1] + [Unit(unit, alone(unit.trees)) for unit in units[-1:]]
    return TypeOfOneToken(made, units.piece) if isinstance(units, TypeOfOneToken) else made


def trees_of(units):
    """The trees of what was written."""
    trees = ()
    for unit in units:
        trees += unit.trees if isinstance(unit, Unit) else (unit[1]._replace(children=trees_of(unit[2])),)
    return trees


def made_by_arms(arms, trees):
    """What the macro that trees spell makes of others: a tree, or the answer why there is none, unless that is a fault of an arm."""
    arms = arms_of(arms)
    if unit_count(units_of(trees)) > MOST_UNITS:
        raise TooManyUnits
    made = plain_macros.expanded(arms, Input(trees), placed)
    if not isinstance(made, str):
        (tree,) = trees_of(made)
        return tree
    for words, number in REPEATS:
        if made.startswith(words):
            raise ArmFault(int(made.split(" ")[2]), number)
    if made.startswith("no match"):
        return "no match"
    return "ambiguous" if made.startswith("ambiguous") else "lengths"
