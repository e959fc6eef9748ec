"""Macros of several arms by brute force, from docs/DIFFERENCES.md and docs/PROVED.md: all readings of an input are listed, one
part after the other, and what they bind is a list of lists. Nothing here knows of places or threads.

A unit is one token as Rust sees it, or a subtree: ("ident", NAME), ("lit", TEXT), ("op", CHARS), ("life", NAME) or
("sub", BRACKET, UNITS), where `<` is the bracket of what has none. A part of a pattern is ("var", NAME, FRAGMENT), ("unit", UNIT),
("sub", BRACKET, PARTS) or ("rep", PARTS, SEPARATOR or None, OPERATOR); a part of a template is ("use", NAME, PLACE), or one of the others,
in which a repetition has its flat place behind its operator.
"""


import plain_grammar
from plain_text import tree_of_text

BRACKETS = {"(": ")", "[": "]", "{": "}"}


class Stopped(Exception):
    """Why a template is not filled: `still repeats` and the place of the use; or `nothing repeats`, `lengths` or `no round` and that of the
    repetition."""


# Where the unit ends that begins at a place. If the units answer that themselves, a part may end within another unit.
def behind(units, at):
    return at + 1 if isinstance(units, list) else units.behind(at)


# Where what a fragment takes at a place of the input ends; None if it takes nothing there and has to. White space may be before
# the name of an ident, which marks a raw one.
def taken(fragment, units, at):
    first = units[at] if at < len(units) else None
    if first is None:
        return None
    if fragment == "vis":
        return visibility_end(first, units, at)
    if fragment == "tt":
        return behind(units, at)
    if fragment == "ident":
        return behind(units, at) if first[0] == "ident" and first[1].strip() != "_" else None
    if fragment == "lifetime":
        return behind(units, at) if first[0] == "life" else None
    if fragment == "block":
        return behind(units, at) if first[0] == "sub" and first[1] == "{" and plain_grammar.is_whole("statements", trees_in(first)) else None
    if fragment == "literal":
        end = literal_end(first, units, at)
        return units.behind_piece(at) if end is None and not isinstance(units, list) else end
    return units.reached(fragment, at)


# The trees in a subtree: it knows them itself, or they are those of its text.
def trees_in(unit):
    return unit.trees[0].children if hasattr(unit, "trees") else tree_of_text(" ".join(map(unit_text, unit[2]))).children


# How a unit is written, with its tokens between spaces.
def unit_text(unit):
    if unit[0] == "sub":
        return f"{unit[1]} {' '.join(unit_text(held) for held in unit[2])} {BRACKETS[unit[1]]}"
    if unit[0] == "life":
        return f"'{unit[1]}"
    return unit[1]


def visibility_end(first, units, at):
    if first != ("ident", "pub"):
        return at
    at = behind(units, at)
    held = units[at] if at < len(units) else None
    if held is not None and held[0] == "sub" and held[1] == "(" and held[2]:
        inner = held[2][0]
        alone = behind(held[2], 0) == len(held[2])
        if inner == ("ident", "in") or alone and inner in [("ident", w) for w in ("crate", "self", "super")]:
            return behind(units, at)
    return at


def literal_end(first, units, at):
    end = behind(units, at)
    if is_literal(first):
        return end
    if first == ("op", "-") and end < len(units) and is_literal(units[end]):
        return behind(units, end)
    return None


# Whether a unit is a literal or a truth value; a raw ident is none.
def is_literal(unit):
    return unit[0] == "lit" or unit in (("ident", "true"), ("ident", "false"))


# What a variable took: the units, or one in their place, as for a literal after `-`.
def bound_by(fragment, units, at, end):
    if not isinstance(units, list):
        return units.bound(fragment, at, end)
    return [("sub", "<", units[at:end])] if fragment == "literal" and end - at > 1 else units[at:end]


# All ways in which the parts take units from a place on: where each ends, and what it binds.
def ways(parts, units, at):
    if not parts:
        yield at, {}
        return
    first, others = parts[0], parts[1:]
    for place, bound in first_ways(first, units, at):
        for end, more in ways(others, units, place):
            yield end, {**bound, **more}


def first_ways(part, units, at):
    if part[0] == "var":
        end = taken(part[2], units, at)
        if end is not None:
            yield end, {part[1]: bound_by(part[2], units, at, end)}
    elif part[0] == "unit":
        if at < len(units) and units[at] == part[1]:
            yield behind(units, at), {}
    elif part[0] == "sub":
        if at < len(units) and units[at][0] == "sub" and units[at][1] == part[1]:
            held = units[at][2]
            for end, bound in ways(part[2], held, 0):
                if end == len(held):
                    yield behind(units, at), bound
    else:
        yield from rounds_of(part, units, at)


# All lists of rounds of a repetition.
def rounds_of(part, units, at):
    _, body, separator, operator = part
    names = names_of(body)
    if operator in "*?":
        yield at, {name: ("list", []) for name in names}
    for place, bound in ways(body, units, at):
        for end, more in behind_round(part, units, place):
            yield end, {name: ("list", [bound[name]] + more[name]) for name in names}


# All that may come behind a round: no other, or one more.
def behind_round(part, units, at):
    _, body, separator, operator = part
    names = names_of(body)
    yield at, {name: [] for name in names}
    if operator == "?":
        return
    start = at
    if separator is not None:
        if at >= len(units) or units[at] != separator:
            return
        start = behind(units, at)
    for place, bound in ways(body, units, start):
        for end, more in behind_round(part, units, place):
            yield end, {name: [bound[name]] + more[name] for name in names}


# How many tokens a unit is, at any depth: a subtree's delimiter is one.
def size(unit):
    if unit[0] == "sub":
        return 1 + sum(size(held) for held in unit[2])
    return {"op": len(unit[1]), "life": 2}.get(unit[0], 1)


# All flat places of the units at which beginnings of the parts stop that take units from a place on.
def stops(parts, units, at):
    yield sum(size(unit) for unit in units[:at])
    if not parts:
        return
    first, others = parts[0], parts[1:]
    if first[0] == "sub" and at < len(units) and units[at][0] == "sub" and units[at][1] == first[1]:
        for place in stops(first[2], units[at][2], 0):
            yield sum(size(unit) for unit in units[:at]) + 1 + place
    if first[0] == "rep":
        yield from stops_in_rounds(first, units, at)
    for place, _ in first_ways(first, units, at):
        yield from stops(others, units, place)


# Those in a round, or in one behind it.
def stops_in_rounds(part, units, at):
    _, body, separator, operator = part
    yield from stops(body, units, at)
    for place, _ in ways(body, units, at) if operator != "?" else ():
        if separator is None:
            yield from stops_in_rounds(part, units, place)
        elif place < len(units) and units[place] == separator:
            yield from stops_in_rounds(part, units, behind(units, place))


def names_of(parts):
    names = []
    for part in parts:
        if part[0] == "var":
            names.append(part[1])
        elif part[0] == "sub":
            names += names_of(part[2])
        elif part[0] == "rep":
            names += names_of(part[1])
    return names


# The names that a template uses.
def uses_of(parts):
    names = []
    for part in parts:
        if part[0] == "use":
            names.append(part[1])
        elif part[0] == "sub":
            names += uses_of(part[2])
        elif part[0] == "rep":
            names += uses_of(part[1])
    return names


def is_list(bound):
    return isinstance(bound, tuple) and bound and bound[0] == "list"


# What a use writes before these parts of the template. A type of one token knows the unit that it becomes before `<`.
def used(units, parts):
    is_before_less = bool(parts) and parts[0][0] == "unit" and parts[0][1][:2] == ("op", "<")
    return [units.piece] if is_before_less and hasattr(units, "piece") else units


# The units that a template becomes.
def filled(parts, bound):
    units = []
    for number, part in enumerate(parts):
        if part[0] == "use":
            if is_list(bound[part[1]]):
                raise Stopped("still repeats", part[2])
            units += used(bound[part[1]], parts[number + 1:])
        elif part[0] == "unit":
            units.append(part[1])
        elif part[0] == "sub":
            units.append(("sub", part[1], filled(part[2], bound)))
        else:
            units += filled_rounds(part, bound)
    return units


def filled_rounds(part, bound):
    _, body, separator, operator, place = part
    lists = [bound[name][1] for name in uses_of(body) if is_list(bound[name])]
    counts = {len(rounds) for rounds in lists}
    if not counts:
        raise Stopped("nothing repeats", place)
    if len(counts) > 1:
        raise Stopped("lengths", place)
    count = counts.pop()
    if count == 0 and operator == "+":
        raise Stopped("no round", place)
    units = []
    for number in range(count):
        if number and separator is not None:
            units.append(separator)
        here = {name: its[1][number] if is_list(its) and number < len(its[1]) else its for name, its in bound.items()}
        units += filled(body, here)
    return units


# What is bound, and what each variable took as it is written.
def placed(bound, written):
    if is_list(bound):
        return ("list", [placed(round_, written) for round_ in bound[1]])
    return written(bound)


# What a macro makes of an input: `no match PLACE`, where the arm that comes farthest stops, `ambiguous ARM`, why the template of an arm is
# not filled, as `lengths ARM PLACE`, or units. What a variable took is written so.
def expanded(arms, units, written=list):
    for number, (pattern, template) in enumerate(arms):
        found = []
        for end, bound in ways(pattern, units, 0):
            if end == len(units):
                found.append(bound)
            if len(found) == 2:
                return f"ambiguous {number}"
        if found:
            try:
                return filled(template, {name: placed(bound, written) for name, bound in found[0].items()})
            except Stopped as stopped:
                return f"{stopped.args[0]} {number} {stopped.args[1]}"
    return f"no match {max(max(stops(pattern, units, 0)) for pattern, _ in arms)}"
