"""Definitions of plain_trees.py turned: what is turned, the text that is replaced, and the text in its place."""
from made_values import NO_THREES, NO_TWOS

THREES = '"...", "..=", "<<=", ">>="'
TWOS = "-= != *= /= &= %= ^= += <= == >= |= -> => >> <- :: .. && << ||"
KIND_NAMES = {
    "int": "Integer", "float": "Float", "err": "Err(())", "byte": "Byte", "char": "Char", "str": "Str", "bstr": "ByteStr",
    "cstr": "CStr", "rstr": "StrRaw", "rbstr": "ByteStrRaw", "rcstr": "CStrRaw",
}
OPENINGS = {
    "int": '""', "float": '""', "err": '""', "byte": '"b\'"', "char": '"\'"', "str": "'\"'", "bstr": "'b\"'",
    "cstr": "'c\"'", "rstr": '"r"', "rbstr": '"br"', "rcstr": '"cr"',
}
CUTS = "isinstance(tree, Punct) and tree.char == char"
SPACE = "tree.spacing in glued):"
SHOWN_SPACING = "'alone' if tree.spacing == 'alone' else 'joint'"


def without(words, word):
    """The words without one of them."""
    return " ".join(other for other in words.split() if other != word)


GLUING = [
    *((f"{three} is no three", THREES, without(THREES, f'"{three}",').rstrip(",")) for three in ("...", "..=", "<<=")),
    (">>= is no three", THREES, without(THREES, '">>="').rstrip(",")),
    *((f"{three} is a three", THREES, f'{THREES}, "{three}"') for three in NO_THREES),
    *((f"{two} is no two", f'"{TWOS}"', f'"{without(TWOS, two)}"') for two in TWOS.split()),
    *((f"{two} is a two", f'"{TWOS}"', f'"{TWOS} {two}"') for two in NO_TWOS),
    ("a hidden first punct is a token alone", 'if first.spacing == "alone" or', 'if first.spacing != "joint" or'),
    ("an alone first punct joins others", 'if first.spacing == "alone" or', "if"),
    ("a hidden second punct may have a third", 'if second.spacing == "joint" and', 'if second.spacing != "alone" and'),
    ("any second punct may have a third", 'if second.spacing == "joint" and', "if"),
    ("a two asks that the second be joint", "in TWO else 1", 'in TWO and second.spacing != "hidden" else 1'),
    (
        "any two puncts of which the first is < are a two", "first.char + second.char in TWO",
        "first.char == '<' or first.char + second.char in TWO",
    ),
]
TEXTS = [
    *((f"Debug's name of {kind}", f'"{kind}": "{name}"', f'"{kind}": "{name}x"') for kind, name in KIND_NAMES.items()),
    *((f"Display's opening of {kind}", f'"{kind}": {text}', f'"{kind}": "x" + {text}') for kind, text in OPENINGS.items()),
    ("Debug leaves hashes out", "{f'({hashes})' if hashes else ''}", ""),
    ("Debug of an error has no ()", '"Err(())"', '"Err"'),
    ("Debug shows a hidden punct", SHOWN_SPACING, "tree.spacing"),
    ("Debug has a hidden punct alone", SHOWN_SPACING, "'joint' if tree.spacing == 'joint' else 'alone'"),
    ("Debug of a raw ident has no r#", "IDENT   {leaf_text(tree)}", "IDENT   {tree.text}"),
    ("Debug shows an opaque subtree", "or '$$'}", "or ('??' if tree.kind == 'opaque' else '$$')}"),
    ("Debug has the open span twice", "{tree.open_span} {tree.close}", "{tree.open_span} {tree.open_span}"),
    (
        "Debug goes in four levels at most", "debug_lines(tree.children, depth + 1)",
        "debug_lines(tree.children, min(depth + 1, 4))",
    ),
    ("Debug leaves the suffix out", "else ''} {tree.text} ", "else ''} {tree.text[:len(tree.text) - tree.suffix_len]} "),
    (
        "Display of a float ends in f", "+ closing +",
        '+ closing + ("f" if kind == "float" and not literal.suffix_len else "") +',
    ),
    (
        "Display leaves the suffix of a raw literal out", "+ text[split:].decode()",
        '+ ("" if hashes else text[split:].decode())',
    ),
    ("Display has 255 hashes as none", '"#" * int(hashes)', '"#" * (int(hashes) % 255)'),
    ("Display of a raw ident has no r#", '("r#" if leaf.raw == "raw" else "") + leaf.text', "leaf.text"),
    ("Display shows an opaque subtree", '"opaque": ("", "")', '"opaque": ("<", ">")'),
    ("no space follows an empty subtree that shows nothing", SPACE, f'{SPACE[:-1]} and text[-1:] != " ":'),
    ("no space follows a subtree that ends joint", SPACE, f"{SPACE[:-1]} and not ends_joint(tree):"),
    ("a walk leaves no empty subtree", 'yield "close"', 'yield from ["close"] * bool(tree.children)'),
    (
        "an empty header has its open span twice", "{open_span} {close} {length}",
        "{open_span} {close if length else open_span} {length}",
    ),
    ("a header counts its children", "tree.close, size(tree.children))", "tree.close, len(tree.children))"),
]
PIECES = [
    ("a hidden punct does not cut", CUTS, f'{CUTS} and tree.spacing != "hidden"'),
    ("an ident of that text cuts", CUTS, f"({CUTS} or isinstance(tree, Ident) and tree.text == char)"),
    ("an empty last piece is left out", "map(str, sizes)", "map(str, sizes if sizes[-1] or not sizes[1:] else sizes[:-1])"),
    (
        "an opaque header is not counted in its piece", "sizes[-1] += size((tree,))",
        "sizes[-1] += size((tree,)) - is_opaque(tree)",
    ),
    ("a piece counts trees", "sizes[-1] += size((tree,))", "sizes[-1] += 1"),
]
ALONE = [
    ("a nested last punct stays as it is", "elif isinstance(last, Subtree) and last.children:", "elif False:"),
    (
        "a last punct of an opaque subtree stays as it is", "and last.children:",
        "and last.children and last.kind != 'opaque':",
    ),
    (
        "a last punct stays hidden", "if isinstance(last, Punct):",
        "if isinstance(last, Punct) and last.spacing != 'hidden':",
    ),
]
MUTANTS = GLUING + TEXTS + PIECES + ALONE
# What the texts in place of others name.
HELPERS = '''

def ends_joint(tree):
    return isinstance(tree, Subtree) and tree.children and getattr(tree.children[-1], "spacing", "") == "joint"


def is_opaque(tree):
    return isinstance(tree, Subtree) and tree.kind == "opaque"
'''
