"""How far a fragment of Rust's grammar reaches, by the table of docs/GRAMMAR.md, which is read here line by line.

A subtree is one unit among its siblings (plain_trees.py). Its contents are read behind that, by the name that its bracket has in the table.
"""
import pathlib
import re

from plain_trees import Ident, Literal, Punct, Subtree, glued_front

PAGE = pathlib.Path(__file__).resolve().parent.parent / "docs" / "GRAMMAR.md"
KEYWORDS = set(
    "as async await break const continue crate dyn else enum extern false fn for gen if impl in let loop match mod move mut pub ref "
    "return self Self static struct super trait true type unsafe use where while abstract become box do final macro override priv try "
    "typeof unsized virtual yield _".split()
)
PATH_WORDS = {"self", "Self", "super", "crate"}
BINARY = set("+ - * / % & | ^ << >> == != < > <= >= && ||".split())
ASSIGN = set("= += -= *= /= %= &= |= ^= <<= >>=".split())
# What an expression that is no block begins with, beside names, literals, lifetimes and subtrees.
BEGIN_WORDS = PATH_WORDS | set(
    "async become box break const continue do false for gen if let loop match move return static true try unsafe while yield".split()
)
BEGIN_SIGNS = set("! - * | || & && .. ... ..= < << :: #".split())
TEXTS = {"str", "rstr"}
NUMBERS = {"int", "float"}
BRACKETS = {"PAREN": {"paren"}, "BRACK": {"bracket"}, "BRACE": {"brace"}, "DELIM": {"paren", "bracket", "brace"}, "OPAQUE": {"opaque", "invisible"}}
FAILS = None


class Reader:
    """An expression of the table, read from its words and signs."""

    def __init__(self, text):
        self.words = re.findall(r"\^?'[^']+'|(?:PAREN|BRACK|BRACE|OPAQUE)\(\w+\)|\w+|[()/*+?&!]", text)

    def next_is(self, signs):
        """Whether one of these is next."""
        return bool(self.words) and self.words[0] in signs

    def choice(self):
        """Alternatives."""
        parts = [self.sequence()]
        while self.next_is("/"):
            self.words.pop(0)
            parts.append(self.sequence())
        return parts[0] if len(parts) == 1 else ("choice", parts)

    def sequence(self):
        """One after another."""
        parts = []
        while self.words and not self.next_is("/)"):
            parts.append(self.counted())
        return parts[0] if len(parts) == 1 else ("sequence", parts)

    def counted(self):
        """A part with the signs before it or behind it."""
        if self.next_is("&!"):
            return self.words.pop(0), self.counted()
        part = self.part()
        while self.next_is("*+?"):
            part = (self.words.pop(0), part)
        return part

    def part(self):
        """A unit, a name, or an expression in parentheses. `held` is a subtree with the name of its contents."""
        word = self.words.pop(0)
        if word == "(":
            part = self.choice()
            self.words.pop(0)
            return part
        if word[-1] == ")":
            return "held", tuple(word[:-1].split("("))
        if word[0] == "'":
            return "unit", word[1:-1]
        if word[0] == "^":
            return "front", word[2:-1]
        return ("test" if word.isupper() else "name"), word


def table():
    """The expression of each name of the page, and the name of each fragment."""
    page = PAGE.read_text(encoding="utf-8")
    names = {}
    for block in re.findall(r"```text\n(.*?)```", page, re.S):
        for line in block.splitlines():
            name, text = line.rsplit("   # ", 1)[0].split(" = ", 1)
            names[name] = Reader(text).choice()
    fragments = {}
    for cells, name in re.findall(r"^\| (`\w+`(?:, `\w+`)*) \| `(\w+)` \|$", page, re.M):
        fragments |= dict.fromkeys(re.findall(r"\w+", cells), name)
    return names, fragments


def unit_at(trees):
    """The kind of the unit in front, its text, and how many trees it is."""
    first = trees[0]
    if isinstance(first, Subtree):
        return first.kind, None, 1
    if isinstance(first, Ident):
        return ("raw" if first.raw == "raw" else "word"), first.text, 1
    if isinstance(first, Literal):
        return "literal", first.kind.split(":")[0], 1
    if first.char == "'":
        return ("lifetime", None, 2) if isinstance((trees[1:] + (None,))[0], Ident) else ("sign", "'", 1)
    count = glued_front(trees)
    return "sign", "".join(it.char for it in trees[:count]), count


def passes(test, kind, text):
    """Whether a unit passes one of the tests."""
    if test in BRACKETS:
        return kind in BRACKETS[test]
    if test in ("IDENT", "SEGMENT"):
        return kind == "raw" or kind == "word" and (text not in KEYWORDS or test == "SEGMENT" and text in PATH_WORDS)
    if test in ("LITERAL", "TEXT", "NUMBER"):
        return kind == "literal" and (test == "LITERAL" or text in (TEXTS if test == "TEXT" else NUMBERS))
    if test == "LIFETIME":
        return kind == "lifetime"
    if test == "BOOL":
        return kind == "word" and text in ("true", "false")
    if test == "BINARY":
        return kind == "sign" and text in BINARY
    if test == "ASSIGN":
        return kind == "sign" and text in ASSIGN
    return begins_expression(kind, text)


def begins_expression(kind, text):
    """Whether an expression that is no block may begin so."""
    if kind == "word":
        return text not in KEYWORDS or text in BEGIN_WORDS
    if kind == "sign":
        return text in BEGIN_SIGNS
    return kind != "brace"


class Parse:
    """What the table's names take of some trees: where that ends, and the subtrees whose contents have a name, each by its place."""

    def __init__(self, names, trees):
        self.names = names
        self.trees = trees
        self.units = [unit_at(trees[at:]) for at in range(len(trees))]
        self.kept = {}

    def name(self, name, at):
        """The end and the subtrees of a name that begins at that place, or FAILS. Each is worked out once."""
        if (name, at) not in self.kept:
            self.kept[name, at] = self.part(self.names[name], at)
        return self.kept[name, at]

    def part(self, part, at):
        """The same of an expression."""
        kind, inner = part
        if kind == "choice":
            return next((found for it in inner if (found := self.part(it, at)) is not FAILS), FAILS)
        if kind == "sequence":
            return self.sequence(inner, at)
        if kind == "name":
            return self.name(inner, at)
        if kind in ("unit", "front", "test", "held"):
            return self.unit(kind, inner, at)
        if kind in "&!":
            return (at, ()) if (self.part(inner, at) is not FAILS) == (kind == "&") else FAILS
        return self.repeated(kind, inner, at)

    def sequence(self, parts, at):
        """The same of expressions one behind another."""
        held = ()
        for it in parts:
            found = self.part(it, at)
            if found is FAILS:
                return FAILS
            at, held = found[0], held + found[1]
        return at, held

    def repeated(self, kind, inner, at):
        """The same of an expression that comes once or not at all, or as often as possible."""
        found, held = self.part(inner, at), ()
        if found is FAILS:
            return FAILS if kind == "+" else (at, ())
        while found is not FAILS:
            at, held = found[0], held + found[1]
            found = self.part(inner, at) if kind != "?" else FAILS
        return at, held

    def unit(self, kind, wanted, at):
        """The same of a unit, or of the punct in front of one."""
        if wanted == "EMPTY":
            return at, ()
        if at == len(self.trees) or wanted == "END":
            return (at, ()) if at == len(self.trees) and wanted == "END" else FAILS
        if kind == "front":
            tree = self.trees[at]
            return (at + 1, ()) if isinstance(tree, Punct) and tree.char == wanted else FAILS
        found, text, size = self.units[at]
        if kind == "unit":
            return (at + size, ()) if found in ("word", "sign") and text == wanted else FAILS
        if not passes(wanted[0] if kind == "held" else wanted, found, text):
            return FAILS
        return at + size, ((at, wanted[1]),) if kind == "held" else ()


def are_held(trees, held):
    """Whether each of these subtrees contains what its name says."""
    return all(is_whole(name, trees[at].children) for at, name in held)


def is_whole(name, trees):
    """Whether the trees are that name: it takes all of them, and each subtree among them contains what it must."""
    found = Parse(NAMES, tuple(trees)).name(name, 0)
    return found is not FAILS and found[0] == len(trees) and are_held(trees, found[1])


NAMES, FRAGMENTS = table()


def reach(fragment, trees):
    """How many of the trees the fragment takes, if each subtree among them contains what it must; else 0."""
    found = Parse(NAMES, tuple(trees)).name(FRAGMENTS[fragment], 0)
    return found[0] if found is not FAILS and are_held(trees, found[1]) else 0
