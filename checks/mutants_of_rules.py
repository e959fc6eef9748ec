"""Definitions of plain_rules.py turned: what is turned, the text that is replaced, and the text in its place."""
IS_NAME = 'isinstance(tree, Ident) and tree.text != "_"'
IS_COLON = 'or trees[2].char != ":"'
TAKES_IDENT = "return name_of(tree) is not None\n"
TAKES_TRUTH = 'tree.text in ("true", "false")'
TAKES_ANY = "    return True\n"
ALIKE = "leaf._replace(span=None) == other._replace(span=None)"
ALIKE_BY_KIND = "leaf.text == other.text and leaf.suffix_len == other.suffix_len"
BOTH = "isinstance(leaf, Literal)"
JUDGED = "judge_uses(template, names_in(pattern, frozenset()))"
BELOW = "taken(pattern[0].children, trees[0].children)"
TAKEN = "trees.append(found[name_of(template[1])])"
OTHER_KIND = "trees[0].kind != pattern[0].kind"
FAULTS = [
    ("_ is a name", IS_NAME, "isinstance(tree, Ident)"),
    ("raw _ is a name", IS_NAME, 'isinstance(tree, Ident) and (tree.text != "_" or tree.raw == "raw")'),
    ("raw and plain names are one", "(tree.raw, tree.text) if", "(None, tree.text) if"),
    ("a raw fragment is one", 'fragment.raw != "plain" or', ""),
    ("any fragment is one", "or fragment.text not in FRAGMENTS", ""),
    *((f"{word} is no fragment", '("ident", "literal", "tt")', repr(tuple({"ident", "literal", "tt"} - {word})))
      for word in ("ident", "literal", "tt")),
    ("any punct is the colon", IS_COLON, ""),
    ("the colon is not hidden", IS_COLON, f'{IS_COLON} or trees[2].spacing == "hidden"'),
    ("a $ is not hidden", 'tree.char == "$"', 'tree.char == "$" and tree.spacing != "hidden"'),
    ("fault 3 is none at the end", "if variable[0] in names:", "if variable[0] in names and len(pattern) > 4:"),
    (
        "fault 3 is none across levels", "names = names_in(pattern[0].children, names)",
        "names |= names_in(pattern[0].children, frozenset())",
    ),
    (
        "names of a subtree are none behind it", "names = names_in(pattern[0].children, names)",
        "names_in(pattern[0].children, names)",
    ),
    ("a pattern's subtrees are not judged", "names = names_in(pattern[0].children, names)", "pass"),
    *((f"fault {fault} is {other}", f"raise RuleFault({fault})", f"raise RuleFault({other})")
      for fault, other in ((1, 3), (2, 4), (3, 1), (4, 2))),
    ("the template is judged first", JUDGED, f"judge_signs(template); {JUDGED}"),
    ("uses are not judged", JUDGED, "names_in(pattern, frozenset())"),
    (
        "an opaque subtree's uses are not judged", "judge_uses(template[0].children, names)",
        'template[0].kind == "opaque" or judge_uses(template[0].children, names)',
    ),
    (
        "a use behind a subtree is not judged", "judge_uses(template[0].children, names)",
        "return judge_uses(template[0].children, names)",
    ),
]
FRAGMENTS = [
    ("ident takes _", TAKES_IDENT, "return isinstance(tree, Ident)\n"),
    ("ident takes no raw one", TAKES_IDENT, 'return name_of(tree) is not None and tree.raw == "plain"\n'),
    ("literal takes no true", TAKES_TRUTH, 'tree.text == "false"'),
    ("literal takes no false", TAKES_TRUTH, 'tree.text == "true"'),
    ("literal takes no raw true", TAKES_TRUTH, f'tree.raw == "plain" and {TAKES_TRUTH}'),
    ("literal takes any ident", TAKES_TRUTH, "True"),
    (
        "literal takes no error", "return isinstance(tree, Literal) or",
        'return isinstance(tree, Literal) and tree.kind != "err" or',
    ),
    ("tt takes no $", TAKES_ANY, "    return not is_dollar(tree)\n"),
    ("tt takes no _", TAKES_ANY, '    return getattr(tree, "text", "") != "_"\n'),
    ("tt takes no opaque subtree", TAKES_ANY, '    return getattr(tree, "kind", "") != "opaque"\n'),
    ("tt takes no empty subtree", TAKES_ANY, "    return not isinstance(tree, Subtree) or bool(tree.children)\n"),
]
MATCHING = [
    ("puncts of other spacings differ", "return leaf.char == other.char", "return leaf[::2] == other[::2]"),
    ("all puncts agree", "return leaf.char == other.char", "return True"),
    ("raw and plain idents agree", ALIKE, f"({ALIKE} or isinstance(leaf, Ident) and leaf.text == other.text)"),
    ("literals of other suffixes agree", ALIKE, f"({ALIKE} or {BOTH} and leaf[::3] == other[::3])"),
    (
        "literals of other hashes agree", ALIKE,
        f'({ALIKE} or {BOTH} and {ALIKE_BY_KIND} and leaf.kind[:4] == other.kind[:4])',
    ),
    ("literals of other kinds agree", ALIKE, f"({ALIKE} or {BOTH} and {ALIKE_BY_KIND})"),
    ("literals of other texts agree", ALIKE, f"({ALIKE} or {BOTH} and leaf.kind == other.kind)"),
    ("leaves of other spans differ", ALIKE, "leaf == other"),
    ("opaque and invisible subtrees agree", OTHER_KIND, 'shown(trees[0].kind) != shown(pattern[0].kind)'),
    ("subtrees of other kinds agree", f"or {OTHER_KIND}", ""),
    ("subtrees of other spans differ", OTHER_KIND, f"trees[0].open_span != pattern[0].open_span or {OTHER_KIND}"),
    ("what is left over is let go", "return None if trees else found", "return found"),
    (
        "what is left over below is let go", BELOW,
        "taken(pattern[0].children, trees[0].children[:max(1, len(pattern[0].children))])",
    ),
    ("a subtree's children are not asked", "if below is None:", "if below is None and trees[0].kind != 'brace':"),
]
TRANSCRIBING = [
    ("a taken punct becomes alone", TAKEN, f"{TAKEN}; trees[-1:] = [made_alone(trees[-1])]"),
    ("a taken leaf has the use's span", TAKEN, f"{TAKEN}; trees[-1:] = [spanned(trees[-1], template[1].span)]"),
    ("a taken invisible subtree is stripped", TAKEN, f"{TAKEN}; trees[-1:] = stripped(trees[-1])"),
    (
        "a template's subtree has the kind of a bracket", "children=transcribed(template[0].children, found)",
        "children=transcribed(template[0].children, found), kind='bracket'",
    ),
]
MUTANTS = FAULTS + FRAGMENTS + MATCHING + TRANSCRIBING
# What the texts in place of others name.
HELPERS = '''

def judge_signs(template):
    """That a name follows each `$` of the template."""
    for place, tree in enumerate(template):
        if is_dollar(tree) and (place + 1 == len(template) or name_of(template[place + 1]) is None):
            raise RuleFault(2)


def made_alone(tree):
    return tree._replace(spacing="alone") if isinstance(tree, Punct) else tree


def spanned(tree, span):
    return tree if isinstance(tree, Subtree) else tree._replace(span=span)


def shown(kind):
    return "invisible" if kind == "opaque" else kind


def stripped(tree):
    return tree.children if isinstance(tree, Subtree) and tree.kind == "invisible" else [tree]
'''
