"""Definitions of plain_lists.py turned: what is turned, the text that is replaced, and the text in its place."""
ONE_TREE = "len(trees) != 1 or not isinstance(trees[0], Subtree)"
MUTANTS = [
    ("the first of two tops is taken", ONE_TREE, "not trees or not isinstance(trees[0], Subtree)"),
    ("a leaf is a top", f"if {ONE_TREE}:", "if len(trees) != 1:"),
    (
        "a header may count past its parent", "if place + length > len(items):\n            raise NotOneSubtree",
        "length = min(length, len(items) - place)",
    ),
    (
        "no tokens are a top", f"if {ONE_TREE}:",
        "if not trees:\n        return Subtree('invisible', None, None, ())\n    if len(trees) > 1:",
    ),
]
HELPERS = ""
