"""Macro rules made by chance, and inputs of which most are instances (docs/CONSOLE.md, "Macros")."""
from made_values import CHARS, LITERAL_KINDS, Values
from plain_rules import FRAGMENTS, is_dollar, variable_at
from plain_stored import SPACINGS
from plain_trees import Ident, Punct, Subtree

NAMES = "abcde"
UNSEEN = ("invisible", "opaque")


class Rules(Values):
    """Rules and inputs."""

    def name(self):
        """A name of a variable, or what is none."""
        return Ident(self.pick(("plain", "plain", "raw")), self.span(), "_" if self.happens(0.3) else self.pick(NAMES))

    def keyword(self):
        """An ident that matches itself."""
        return Ident("plain", self.span(), "k")

    def sign(self, char):
        """A punct of a rule, of any spacing."""
        return Punct(self.pick(SPACINGS), self.span(), char)

    def variable(self, name):
        """A variable of a pattern, now and then with a fault."""
        fragment = Ident("plain", self.span(), self.pick(FRAGMENTS))
        if self.happens(0.02):
            fragment = fragment._replace(raw="raw") if self.happens(0.5) else fragment._replace(text="ty")
        return [self.sign("$"), name, self.sign(self.pick(CHARS) if self.happens(0.01) else ":"), fragment]

    def pattern(self, names, depth=3):
        """The trees of a pattern, whose variables have names that are left, or mostly so; these then go."""
        trees = []
        for _ in range(self.below(6)):
            if self.happens(0.5) and names:
                trees += self.variable(names.pop() if self.happens(0.98) else self.name())
            elif self.happens(0.5) and depth > 0:
                trees.append(self.subtree(self.pattern(names, depth - 1)))
            else:
                trees.append(self.pick((self.leaf, self.literal, self.keyword))())
        return trees

    def template(self, names, depth=3):
        """The trees of a template, whose uses have those names, or mostly so."""
        trees = []
        for _ in range(self.below(6)):
            if self.happens(0.5) and names:
                name = self.pick(names)._replace(span=self.span()) if self.happens(0.97) else self.name()
                trees += [self.sign("$"), name]
            elif self.happens(0.5) and depth > 0:
                trees.append(self.subtree(self.template(names, depth - 1)))
            else:
                trees.append(self.keyword())
        return trees

    def spoiled(self, trees):
        """The trees, with a `$` among them that begins nothing, or with their first variable or use once more."""
        place = self.below(len(trees) + 1)
        return trees[:place] + [self.sign("$")] + trees[place:] if self.happens(0.7) else trees + trees[:4]

    def taken(self, fragment):
        """A tree that a variable of the fragment takes, or now and then any leaf."""
        if self.happens(0.04):
            return self.leaf()
        if fragment == "ident":
            return self.ident()
        if fragment == "literal":
            truth = Ident(self.pick(("plain", "raw")), self.span(), self.pick(("true", "false")))
            return self.literal() if self.happens(0.5) else truth
        return self.subtree(self.trees(1, 5)) if self.happens(0.5) else self.pick((self.leaf, self.name))()

    def alike(self, leaf):
        """A leaf that differs from another by its spacing, or now and then by one thing more."""
        if isinstance(leaf, Punct):
            return leaf._replace(spacing=self.pick(SPACINGS), char=self.pick(CHARS) if self.happens(0.05) else leaf.char)
        if self.happens(0.8):
            return leaf
        if isinstance(leaf, Ident):
            return leaf._replace(raw=self.pick(("plain", "raw")))
        return self.pick((self.like_kind, self.other_kind, self.other_suffix))(leaf)

    def like_kind(self, literal):
        """The literal with other hashes, if it has any."""
        kind, _, hashes = literal.kind.partition(":")
        return literal._replace(kind=f"{kind}:{(int(hashes) + 1) % 256}") if hashes else literal

    def other_kind(self, literal):
        """The literal of another kind, or of the same."""
        return literal._replace(kind=self.pick(LITERAL_KINDS))

    def other_suffix(self, literal):
        """The literal whose suffix is its last character, or none if it has one."""
        return literal._replace(suffix_len=0 if literal.suffix_len else len(literal.text[-1:].encode()))

    def other_delimiter(self, kind):
        """A kind of delimiter that is easily taken for that one, or any."""
        if kind in UNSEEN:
            return self.pick(UNSEEN)
        return self.delimiter_kind()

    def instance(self, pattern):
        """Trees of which most are an instance of the pattern."""
        trees = []
        while pattern:
            variable = variable_at(pattern) if is_dollar(pattern[0]) else None
            if variable is not None:
                trees.append(self.taken(variable[1]))
                pattern = pattern[4:]
                continue
            first, pattern = pattern[0], pattern[1:]
            if isinstance(first, Subtree):
                kind = self.other_delimiter(first.kind) if self.happens(0.04) else first.kind
                trees.append(Subtree(kind, self.span(), self.span(), tuple(self.instance(first.children))))
            else:
                trees.append(self.alike(first)._replace(span=self.span()))
        return trees + [self.leaf()] * self.happens(0.03)
