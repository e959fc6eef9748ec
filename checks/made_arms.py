"""Macros of several arms made by chance, and inputs that an arm may take (docs/CONSOLE.md, "Macros of several arms")."""
import made_fragments
import plain_grammar
from made_values import LITERAL_KINDS, Values
from plain_arms import MOST_UNITS, unit_count
from plain_stored import SPACINGS
from plain_text import tree_of_text
from plain_trees import Ident, Literal, Punct, Subtree
from random_macros import Maker, macro, macro_text, units_text

# Words that mostly make a fault among those of a macro.
WORDS = (
    "$", "$x", "$v1", "$v2", "$v1 : tt", "$v2:exp", "$v3:pat_", "$v1:what", "$_:tt", "$r#v1:tt", "$v1:r#vis", "$_", "$crate",
    "$crate:tt", "$v1::tt", "$(a),?", "$(a)=?", "$(a)?", "$($w:vis)*", "$($(a)*)+", "$($($w:vis)+)?", "$()*", "$(a)$*", "$(b)**",
    "$[b]*", "$(b)", "$(b)'x*", "$($v1)*", "$($($v2),*);*", "$(x $v1 $v2)+", "$(c)?", "$$", "$$v1", ":$v1", "+$v2", "a", "_",
    "r#true", "r#pub", "= >", "=>", "==", "=", ";", "; ;", ", ;", "()", "{}", "() => []", "() => a", "[] => {};", "'r#x", "->",
)
# Macros and inputs in which one thing matters that seldom comes by chance.
MACROS = (
    ("($_:tt $_:tt) => {$_}", "a b"),
    ("($_:tt $x:tt) => {$_ $x}", "a b"),
    ("($(a)$*) => {$(b)*}", "a $ a"),
    ("($($x:tt)$+) => {[$($x)$*]}", "a $ b"),
    ("(a $) => {b $}", "a $"),
    ("([$] $x:tt) => {$x}", "[$] a"),
    ("($$) => {}", "$"),
    ("($x:literal) => {$x}; ($x:tt) => {b}", "r#true"),
    ("($x:literal) => {$x}", "- false"),
    ("($v:vis) => {a}; ($($x:tt)*) => {b}", ""),
    ("([$v:vis] a) => {a}; ($($x:tt)*) => {b}", "[] a"),
    ("($(a)*=*) => {b}", "a *= a"),
    ("($crate:tt) => {$crate}", "$crate:tt"),
    ("($r#x:tt) => {$x $r#x}", "a"),
    ("($($w:vis),?) => {}", ""),
    ("($($)*) => {}", ""),
    ("($($(a),?$($w:vis)+)*) => {}", ""),
    ("($($(a)?)*) => {}", ""),
    ("($($x:tt)*) => {$($x $($x)*)*}", "a"),
    ("($($x:tt),* $y:tt) => {$($y $x)+}", "a"),
    ("([$x:tt] $x:tt) => {}", "[a] a"),
    ("($($x:tt),* $x:tt) => {}", "a"),
    ("($x:word) => {}", "a"),
    ("() => {}; ($x:statement) => {}", "a"),
    ("($($x:tt)* $($y:tt)*) => {}; ($x:tt) => {}", "a"),
    ("(a) == {b}", "a"),
    ("(a) => {b};", "a"),
    ("(a) => {$($x)*} b", "a"),
    ("($($x:ident)=>*) => {$(<$x)=>*}", "a => b"),
    ("($x:tt $y:tt) => {=$x = [$y]}", "=> ::"),
    ("($x:literal) => {$x}", "-1"),
    ("($e:expr) => {$e $e}", "a + b"),
    ("($e:expr) => {$e}", "(a)"),
    ("($($e:expr),*) => {$([$e])*}", "1, -1, a.b"),
    ("(A < $t:ty > $($x:tt)*) => {[$t] $($x)*}", "A < B<C>> = d"),
    ("($t:ty $(> $x:tt)*) => {$t $($x)*}", "A<B>> c"),
    ("($t:ty) => {a as $t << b + c as $t + d}", "A"),
    ("($t:ty, $e:expr) => {$t<$e>; $e < $t; [$t] < $t}", "A, a"),
    ("($p:pat => $e:expr) => {$p; $e}; ($($x:tt)*) => {}", "A | B => a +"),
    ("($($s:stmt;)*) => {$([$s])*}", "let a = b; c();"),
    ("($v:vis $i:item) => {$i $v}", "pub fn f() {}"),
    ("($(#[$m:meta])* $p:path) => {$([$m])* $p}", "#[a = 1] b::c"),
)
SIGNS = ",;=>+:-$.<|"
# How many units at most a variable of Rust's grammar is given.
MOST_WORDS = 5


class GrammarMaker(Maker):
    """Macros of which some variables have a fragment of Rust's grammar, and inputs for them."""

    def part(self, depth):
        """A part of a pattern."""
        part = super().part(depth)
        if part[0] == "var" and self.by.random() < 0.6:
            return (*part[:2], self.by.choice(list(plain_grammar.FRAGMENTS)))
        return part

    def fragment(self, name):
        """What a fragment may take: words, each for a unit."""
        if name not in plain_grammar.FRAGMENTS:
            return super().fragment(name)
        maker = made_fragments.Maker(self.by, MOST_WORDS)
        words = maker.piece(name)
        return [("ident", word) for word in (maker.beside(words) if self.by.random() < 0.1 else words)]


class Arms(Values):
    """Macros and inputs."""

    def macro(self):
        """The texts of a macro and of an input that one of its arms may take; nothing if that is too long."""
        if self.happens(0.25):
            return self.pick(MACROS)
        arms, units = macro(self.pick((Maker, GrammarMaker))(self.chance))
        if unit_count(units) > MOST_UNITS:
            return None
        text = macro_text(arms) + self.pick(("", "", "", " ;"))
        for _ in range(self.pick((0, 0, 1, 1, 2))):
            text = self.spoiled_words(text)
        return self.pick((text, self.squeezed(text))), units_text(units)

    def spoiled_words(self, text):
        """The text without one of its words that is no bracket, or with another in its place, or with one more."""
        words = text.split(" ")
        place = self.below(len(words) + 1)
        stays = place == len(words) or self.happens(0.6) or any(bracket in words[place] for bracket in "()[]{}")
        words[place:place + (not stays)] = [] if not stays and self.happens(0.3) else [self.pick(WORDS)]
        return " ".join(words)

    def squeezed(self, text):
        """The text with few blanks between its signs and the words beside them."""
        first, *words = text.split(" ")
        for word in words:
            touches = first[-1:] in SIGNS and word[:1] in SIGNS and self.happens(0.7)
            first += word if touches else " " + word
        return first

    def changed(self, tree, chance):
        """The tree with other spans, and by that chance with another spacing or kind, or raw if it was not."""
        if isinstance(tree, Subtree):
            kind = self.pick(("invisible", "opaque", tree.kind, self.delimiter_kind())) if self.happens(chance) else tree.kind
            return Subtree(kind, self.span(), self.span(), tuple(self.changed(child, chance) for child in tree.children))
        tree = tree._replace(span=self.span())
        if isinstance(tree, Punct) and tree.spacing == "alone":
            return tree._replace(spacing=self.pick(SPACINGS))
        if not self.happens(chance):
            return tree
        if isinstance(tree, Punct):
            return tree._replace(spacing="alone")
        if isinstance(tree, Ident):
            return tree._replace(raw=self.pick(("plain", "raw")))
        return self.pick((self.changed_kind, self.changed_suffix))(tree)

    def puncts(self, chars):
        """A punct of any spacing for each character."""
        return [Punct(self.pick((*SPACINGS, "joint")), self.span(), char) for char in chars]

    def arm_of(self, pattern, template):
        """The trees of an arm."""
        return [self.subtree(pattern), *self.puncts("=>"), self.subtree(template)]

    def crate_arm(self):
        """An arm with `crate` behind a `$`, raw or not, once before a fragment."""
        names = [Ident(self.pick(("plain", "raw")), self.span(), "crate") for _ in range(2)]
        variable = [*self.puncts("$"), names[0], *self.puncts(":"), Ident("plain", self.span(), "tt")]
        return self.arm_of(variable, [*self.puncts("$"), names[1]])

    def literal_arm(self):
        """An arm of a literal, and a subtree that it takes if that is opaque and holds one."""
        pattern = tree_of_text("$x:literal").children
        held = tree_of_text(self.pick(("-1", "1.5", "true", "-1 a", "-a", ""))).children
        kind = self.pick(("opaque", "opaque", self.delimiter_kind()))
        return self.arm_of(pattern, pattern[:2]), Subtree(kind, self.span(), self.span(), held)

    def changed_kind(self, literal):
        """The literal of another kind."""
        return literal._replace(kind=self.pick(LITERAL_KINDS))

    def changed_suffix(self, literal):
        """The literal whose suffix is its last character, or none if it has one."""
        return Literal(literal.kind, 0 if literal.suffix_len else len(literal.text[-1:].encode()), *literal[2:])

    def changed_trees(self, text):
        """The trees of a text, changed."""
        chance = self.pick((0.05, 0.3))
        return tuple(self.changed(tree, chance) for tree in tree_of_text(text).children)
