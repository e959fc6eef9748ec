"""Definitions of plain_grammar.py turned: what is turned, the text that is replaced, and the text in its place."""
MUTANTS = [
    ("an ident may be a keyword", "(text not in KEYWORDS or test", "(True or test"),
    ("a keyword of a path is any ident", 'test == "SEGMENT" and text in PATH_WORDS', "text in PATH_WORDS"),
    ("a raw ident is none", 'kind == "raw" or kind == "word"', 'kind == "word"'),
    ("a choice takes its last alternative first", "for it in inner if (found :=", "for it in reversed(inner) if (found :="),
    ("a sequence may stop", "if found is FAILS:\n                return FAILS\n", "if found is FAILS:\n                return at, held\n"),
    ("what is ahead is taken", 'return (at, ()) if (self.part(inner, at) is not FAILS) == (kind == "&") else FAILS', "return self.part(inner, at)"),
    ("what must not be ahead may be", '== (kind == "&") else FAILS', "or True else FAILS"),
    ("often is once", 'self.part(inner, at) if kind != "?" else FAILS', "FAILS"),
    ("a front is a whole unit", "tree.char == wanted else FAILS", "self.units[at][1] == wanted else FAILS"),
    ("no subtree is read", "for at, name in held)", "for at, name in ())"),
    ("a subtree may contain more", "is not FAILS and found[0] == len(trees)", "is not FAILS"),
    ("only one level of subtrees is read", "found[0] == len(trees) and are_held(trees, found[1])", "found[0] == len(trees)"),
    ("a lifetime is one tree", '("lifetime", None, 2)', '("lifetime", None, 1)'),
    ("puncts never make one token", "count = glued_front(trees)", "count = 1"),
    ("an opaque subtree is none", '"OPAQUE": {"opaque", "invisible"}', '"OPAQUE": set()'),
]
HELPERS = ""
