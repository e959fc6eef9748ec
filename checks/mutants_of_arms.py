"""Definitions of plain_arms.py turned: what is turned, the text that is replaced, and the text in its place."""
FOUND = "if is_operator(trees[count:]) else None"
FAULT = "fault = pattern_fault(pattern, set())\n    if fault:\n        raise ArmFault(number, fault)"
ARROW = "if not is_arrow(trees[1:]):\n        raise ArmFault(number, NO_ARROW)"
SEMICOLON = 'if left and not is_punct(left, ";"):\n        raise ArmFault(number, NO_SEMICOLON)'
UNITS = [
    ("a lifetime is two units", "return 2 if is_ident(trees[1:]) else 1", "return 1"),
    ("puncts never make one token", "return glued_front(trees) if isinstance(trees[0], Punct) else 1", "return 1"),
    ("raw and plain idents are one unit", 'return (RAW if ident.raw == "raw" else "") + ident.text', "return ident.text"),
    ("literals of other kinds are one unit", '{first.kind} {first.suffix_len}', "{first.suffix_len}"),
    ("literals of other suffixes are one unit", " {first.suffix_len}", ""),
    ("opaque and invisible subtrees are one unit", '"opaque": "opaque"', '"opaque": "invisible"'),
    ("invisible subtrees are parentheses", '"invisible": "invisible"', '"invisible": "("'),
]
SPELLING = [
    ("an operator may be glued", 'return is_punct(trees, "*+?") and unit_size(trees) == 1', 'return is_punct(trees, "*+?")'),
    ("a $ is no separator", "if not trees or isinstance(trees[0], Subtree):", 'if not trees or isinstance(trees[0], Subtree) or is_punct(trees, "$"):'),
    ("a repetition has no separator", f"return (trees[:count], trees[count].char) {FOUND}", "return None"),
    ("a separator is one tree", "    count = unit_size(trees)\n    return (trees[:count]", "    count = 1\n    return (trees[:count]"),
    ("any brackets hold a repetition", 'or trees[0].kind != "paren"', ""),
    ("r#crate is $crate", 'word(trees[0]) == "crate"', 'trees[0].text == "crate"'),
    ("$crate begins nothing", "if not behind or is_crate(behind):", "if not behind:"),
    ("a last $ begins nothing", "if not behind or is_crate(behind):", "if is_crate(behind):"),
    ("a name is raw or not", '("var", behind[0].text, fragment)', '("var", word(behind[0]), fragment)'),
    ("a fragment is never raw", "fragment = behind[2].text", "fragment = word(behind[2])"),
    ("any punct precedes a fragment", 'not is_punct(behind[1:], ":")', "not behind[1:]"),
    ("a use is raw or not", "behind[0].text in names:", "word(behind[0]) in names:"),
    ("$crate uses a variable", "if is_ident(behind) and not is_crate(behind)", "if is_ident(behind)"),
    ("a template's repetition holds no tokens", "template_of(held, names), between", "[part for part in template_of(held, names) if part[0] != 'unit'], between"),
]
FAULTS = [
    ("an unknown fragment begins nothing", '("wrong", UNKNOWN_FRAGMENT), 1', '("wrong", BEGINS_NOTHING), 1'),
    ("_ may be given twice", "names.add(part[1])", 'names |= {part[1]} - {"_"}'),
    ("names below are let go", "fault = pattern_fault(part[2], names)", "fault = pattern_fault(part[2], set(names))"),
    ("names of a repetition are let go", "or pattern_fault(part[1], names)", "or pattern_fault(part[1], set(names))"),
    ("what a repetition holds comes first", "repetition_fault(part) or pattern_fault(part[1], names)", "pattern_fault(part[1], names) or repetition_fault(part)"),
    ("a separator precedes ?", 'if part[2] is not None and part[3] == "?":', "if False:"),
    ("a repetition may be empty", "if all(map(may_take_nothing, part[1])) else None", "if False else None"),
    ("an empty repetition comes before a separator", "    if part[2] is not None and part[3]", "    if not all(map(may_take_nothing, part[1])) and part[2] is not None and part[3]"),
    ("a + with what may be empty takes a unit", 'return part[3] in "*?" or all(map(may_take_nothing, part[1]))', 'return part[3] in "*?"'),
    ("a ? takes a unit", 'return part[3] in "*?" or', 'return part[3] == "*" or'),
    ("vis takes a unit", 'return part[0] == "var" and part[2] == "vis"', "return False"),
]
ARMS = [
    ("a pattern is not judged", FAULT, "pattern_fault(pattern, set())"),
    ("an arrow is missing last", ARROW, "pass"),
    ("= > is an arrow", 'return is_punct(trees, "=") and unit_size(trees) == 2 and', 'return is_punct(trees, "=") and is_punct(trees[1:], ">") and'),
    ("any two puncts of one token are an arrow", ' and trees[1].char == ">"', ""),
    ("arms need no ;", SEMICOLON, "left = left if is_punct(left, ';') else (None, *left)"),
    ("no arm is a macro", "while trees or not arms:", "while trees:"),
    ("; behind the last arm begins one", "left[1:]\n\n\ndef arms_of", "left[1:] if left[1:] else left\n\n\ndef arms_of"),
    ("arms are counted from 1", "raise ArmFault(number, NO_PATTERN)", "raise ArmFault(number + 1, NO_PATTERN)"),
    ("all faults are of the first arm", "arm_at(trees, len(arms))", "arm_at(trees, 0)"),
]
WRITING = [
    ("what is bound stays as it is", "units[:-1] + [Unit(unit, alone(unit.trees)) for unit in units[-1:]]", "units"),
    ("each token that is bound is alone", "units[:-1] + [Unit(unit, alone(unit.trees)) for unit in units[-1:]]", "[Unit(unit, alone(unit.trees)) for unit in units]"),
    ("a separator stays as it is", "between = unit_of(alone(separator))", "between = unit_of(separator)"),
    ("a punct before a $ stays as it is", 'alone(trees[:1]) if is_punct(behind, "$") else trees[:1]', "trees[:1]"),
    ("a punct before a subtree is alone", 'alone(trees[:1]) if is_punct(behind, "$") else trees[:1]', 'alone(trees[:1]) if is_punct(behind, "$") or behind and isinstance(behind[0], Subtree) else trees[:1]'),
    ("a $ that is a plain token is alone", '        return ("use", behind[0].text, None), 2\n    return ("unit", unit_of(trees[:1])), 1', '        return ("use", behind[0].text, None), 2\n    return ("unit", unit_of(alone(trees[:1]))), 1'),
    ("what comes has the pattern's top", '[("sub", trees[3], template)]', '[("sub", trees[0], template)]'),
    ("ambiguous is no match", 'return "ambiguous" if', 'return "no match" if'),
    ("lengths are no match", 'else "lengths"', 'else "no match"'),
    ("a use that still repeats is lengths", '(("still repeats", STILL_REPEATS), ', "("),
    ("nothing that repeats is lengths", ', ("nothing repeats", NOTHING_REPEATS))', ",)"),
    ("the first arm is not filled", 'raise ArmFault(int(made.split(" ")[2]), number)', "raise ArmFault(0, number)"),
]
GROUPS = [
    ("an expression comes as its tokens", '("expr", "expr_2021", "ty"', '("ty"'),
    ("a pattern comes as its tokens", '"ty", "pat", "pat_param", ', '"ty", '),
    ("a literal comes as its tokens", '"pat_param", "literal")', '"pat_param")'),
    ("an opaque subtree is no literal", 'unit[:2] != ("sub", "opaque") or not unit[2]', "True"),
    ("any subtree may be a literal", 'unit[:2] != ("sub", "opaque")', 'unit[0] != "sub"'),
    ("a literal may have more behind it", "held, 0) == len(held) else None", "held, 0) else None"),
    ("one token comes as a group", "or len(units) < 2:", "or not units:"),
    ("a type before < comes as its token", "TypeOfOneToken(units, piece_of(trees))", "units"),
    ("an expression before < comes as a group", 'fragment == "ty" and len(units) == 1', "len(units) == 1"),
    ("a group is invisible", 'Subtree("opaque", first_span', 'Subtree("invisible", first_span'),
    ("a group begins where its last tree does", "first_span(trees[0])", "first_span(trees[-1])"),
    ("a group ends where its first tree does", "last_span(trees[-1])", "last_span(trees[0])"),
    ("a group ends with its last bracket", "return last_span(tree.children[-1]) if tree.children else tree.close", "return tree.close"),
    ("a fragment takes nothing", "return at + count if count else None", "return at + count"),
]
MUTANTS = UNITS + SPELLING + FAULTS + ARMS + WRITING + GROUPS
HELPERS = ""
