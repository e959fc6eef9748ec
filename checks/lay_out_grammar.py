#!/usr/bin/env python3
"""Makes the constant of mbe_grammar, and what it is proved to be, from the lines of docs/GRAMMAR.md.

usage: checks/lay_out_grammar.py [CRATE], and then `rt fmt` in the crate. CRATE is the folder that it writes to: crates/mbe_grammar if none is given

Each line of a block of that page is `name = expression   # section`. An expression becomes rules in a list: one for its name, and one
for each part. Equal parts share a rule. A mark of each rule says whether it may take nothing, and its rank; and it is known before which
kinds of units a rule fails or takes nothing. The script writes the files that `main` lists.
"""
import pathlib
import re
import sys

TOP = pathlib.Path(__file__).resolve().parent.parent
CRATE = pathlib.Path(sys.argv[1]) if len(sys.argv) > 1 else TOP / "crates/mbe_grammar"
WIDTH = 156

WORDS = {"self": "SelfValue", "Self": "SelfType", "_": "Underscore", "macro_rules": "MacroRules"}
TESTS = {"IDENT": "Name", "SEGMENT": "PathSegment", "BOOL": "TruthValue", "LITERAL": "Literal", "TEXT": "Text", "NUMBER": "Number",
         "DELIM": "Delimited", "OPAQUE": "Opaque", "ANY": "Any", "BINARY": "BinaryOperator", "ASSIGN": "AssignmentOperator",
         "BEGINS": "BeginsExpression"}
SUBTREES = {"PAREN": "Parenthesis", "BRACK": "Bracket", "BRACE": "Brace"}
# The names whose places the code names: those of fragments, of files and blocks, of what binds, and of what defines macros.
NAMED = ["expression", "expression_2021_fragment", "type", "pattern_fragment", "pattern_param_fragment", "type_path", "statement",
         "item", "meta", "items", "statements", "identifier_pattern", "field_pattern", "label", "macro_rules_item",
         "loose_macro_rules_item", "tokens"]
# Parts that have no parts.
LEAVES = ("unit", "front", "test", "holds", "name", "empty")


# The kinds of units: the first are those of no ident and no punct, as specs/Kinds.antt numbers them. These are the idents that
# are of a kind with others, and then the puncts by their first character.
END, LIFETIME, LITERAL, PAREN, BRACE, BRACK, OPAQUE, NAME, SOFT, ROOT, TRUTH = range(11)
ALIKE = {
    SOFT: "auto default macro_rules raw safe union yeet", ROOT: "self Self super crate", TRUTH: "true false", 11: "as", 12: "async",
    13: "box", 14: "break continue return yield", 15: "const", 16: "dyn", 17: "extern", 18: "fn", 19: "for", 20: "gen", 21: "if",
    22: "match", 23: "loop while", 24: "impl", 25: "let", 26: "move", 27: "mut", 28: "ref", 29: "static", 30: "try", 31: "_",
    32: "unsafe", 33: "enum struct trait type mod use pub macro", 34: "where", 35: "else in await do"}
WORD_KINDS = {word: kind for kind, words in ALIKE.items() for word in words.split()}
CHAR_KINDS = {char: 37 + place for place, char in enumerate("!#$%&*+,-./:;<=>?@^|~'")}
ALL_KINDS = 2**59 - 1


class Parser:
    """One expression, from its words and signs."""

    def __init__(self, text):
        self.words = re.findall(r"(?:PAREN|BRACK|BRACE|OPAQUE)\(\w+\)|\^?'[^']+'|\w+|[()/*+?&!]", text)
        self.at = 0

    def next_is(self, signs):
        return self.at < len(self.words) and self.words[self.at] in signs

    def take(self):
        self.at += 1
        return self.words[self.at - 1]

    def choice(self):
        parts = [self.sequence()]
        while self.next_is(["/"]):
            self.take()
            parts.append(self.sequence())
        return parts[0] if len(parts) == 1 else ("choice", parts)

    def sequence(self):
        parts = []
        while self.at < len(self.words) and not self.next_is(["/", ")"]):
            parts.append(self.counted())
        return parts[0] if len(parts) == 1 else ("sequence", parts)

    def counted(self):
        if self.next_is(["&", "!"]):
            return ({"&": "ahead", "!": "never"}[self.take()], self.counted())
        part = self.part()
        while self.next_is(["*", "+", "?"]):
            part = ({"*": "many", "+": "some", "?": "maybe"}[self.take()], part)
        return part

    def part(self):
        word = self.take()
        if word == "(":
            part = self.choice()
            assert self.take() == ")"
            return part
        if word[0] == "'":
            return ("unit", word[1:-1])
        if word[0] == "^":
            return ("front", word[2:-1])
        if word == "EMPTY":
            return ("empty",)
        if word == "END":
            return ("never", ("test", "ANY"))
        if "(" in word:
            return ("holds", *word[:-1].split("("))
        return ("test", word) if word.isupper() else ("name", word)


def lines_of_page():
    """Each name with its section and its expression."""
    names = {}
    for block in re.findall(r"```text\n(.*?)```", (TOP / "docs/GRAMMAR.md").read_text(), re.S):
        for line in block.splitlines():
            body, section = line.rsplit("   # ", 1)
            name, text = body.split(" = ", 1)
            parser = Parser(text)
            names[name] = (section, parser.choice())
            assert parser.at == len(parser.words), name
    return names


def plain(part):
    """The same of two parts each, with none of the short forms."""
    kind = part[0]
    if kind in LEAVES:
        return part
    if kind in ("choice", "sequence"):
        parts = [plain(it) for it in part[1]]
        whole = parts[-1]
        for it in reversed(parts[:-1]):
            whole = (kind, it, whole)
        return whole
    inner = plain(part[1])
    return {"maybe": ("choice", inner, ("empty",)), "some": ("sequence", inner, ("many", inner)), "many": ("many", inner),
            "never": ("never", inner), "ahead": ("never", ("never", inner))}[kind]


def laid(names):
    """The rules, the place of each name, and the place of each part. The rule of a name has the place of its expression."""
    rules, starts, places = [], {}, {}

    def place(part):
        """The place of a part; a name as it is."""
        if part[0] == "name":
            return part
        if part not in places:
            at = places[part] = len(rules)
            rules.append(None)
            rules[at] = part if part[0] in LEAVES else (part[0], *map(place, part[1:]))
        return places[part]

    def found(rule):
        """The rule with the places of names."""
        if rule[0] == "holds":
            return (*rule[:2], starts[rule[2]])
        return tuple(starts[it[1]] if isinstance(it, tuple) else it for it in rule)

    for name, (_, part) in names.items():
        starts[name] = len(rules)
        rules.append(None)
        rules[starts[name]] = ("name", place(plain(part)))
    places |= {("name", name): at for name, at in starts.items()}
    return list(map(found, rules)), starts, places


def marks_of(rules):
    """Of each rule whether it may take nothing, and a rank above those of what it reaches before it takes a unit."""
    loose = [False] * len(rules)
    while True:
        new = []
        for kind, *parts in rules:
            at = [loose[it] for it in parts] if kind in ("name", "choice", "sequence") else []
            new.append(kind in ("empty", "many", "never") or bool(at) and (all(at) if kind == "sequence" else any(at)))
        if new == loose:
            break
        loose = new
    reached = []
    for kind, *parts in rules:
        inner = kind in ("name", "choice", "sequence", "many", "never")
        reached.append(parts[:1] if kind == "sequence" and not loose[parts[0]] else parts if inner else [])
        assert kind != "many" or not loose[parts[0]], "a repetition of nothing"
    rank = [0] * len(rules)
    for _ in rules:
        new = [1 + max((rank[it] for it in parts), default=-1) for parts in reached]
        if new == rank:
            return list(zip(loose, rank))
        rank = new
    raise ValueError("left recursion")


def kinds_of(kinds):
    """The kinds as one number."""
    return sum(1 << kind for kind in set(kinds))


def kinds_of_puncts(chars):
    return kinds_of(CHAR_KINDS[char] for char in chars)


FIRST_WORDS = ("async do box break const continue for gen if let loop match move return static try unsafe while yield").split()
BEGINS = {
    "LIFETIME": kinds_of([LIFETIME]), "PAREN": kinds_of([PAREN]), "BRACK": kinds_of([BRACK]), "BRACE": kinds_of([BRACE]),
    "IDENT": kinds_of([NAME, SOFT]), "SEGMENT": kinds_of([NAME, SOFT, ROOT]), "BOOL": kinds_of([TRUTH]),
    "LITERAL": kinds_of([LITERAL]), "TEXT": kinds_of([LITERAL]), "NUMBER": kinds_of([LITERAL]),
    "DELIM": kinds_of([PAREN, BRACE, BRACK]), "OPAQUE": kinds_of([OPAQUE]), "BINARY": kinds_of_puncts("+-*/%^&|<>=!"),
    "ASSIGN": kinds_of_puncts("=+-*/%^&|<>"),
    "ANY": ALL_KINDS & ~kinds_of([END]),
    "BEGINS": kinds_of([LIFETIME, LITERAL, PAREN, BRACK, OPAQUE, NAME, SOFT, ROOT, TRUTH, *map(WORD_KINDS.get, FIRST_WORDS)])
    | kinds_of_puncts("!-*|&<#.:")}


def begins(kind, text):
    """The kinds of the units that pass a test."""
    if kind in ("test", "holds"):
        return BEGINS[text]
    return kinds_of([WORD_KINDS[text] if re.match(r"\w", text) else CHAR_KINDS[text[0]]])


def known_of(rules):
    """Of each rule the kinds of units before which it fails, and those before which it takes nothing."""
    known = [(0, 0)] * len(rules)
    while True:
        new = []
        for kind, *parts in rules:
            fails, idles = zip(*[known[it] for it in parts]) if kind in ("name", "choice", "sequence", "many", "never") else ((), ())
            if kind == "empty":
                new.append((0, ALL_KINDS))
            elif kind == "name":
                new.append((fails[0], idles[0]))
            elif kind == "sequence":
                new.append((fails[0] | idles[0] & fails[1], idles[0] & idles[1]))
            elif kind == "choice":
                new.append((fails[0] & fails[1], idles[0] | fails[0] & idles[1]))
            elif kind == "many":
                new.append((0, fails[0]))
            elif kind == "never":
                always = BEGINS[rules[parts[0]][1]] if rules[parts[0]] in (("test", "SEGMENT"), ("test", "ANY")) else 0
                new.append((idles[0] | always, fails[0]))
            else:
                new.append((ALL_KINDS & ~begins(kind, parts[0]), 0))
        if new == known:
            return known
        known = new


def filled(items, indent="    ", width=WIDTH):
    """The items on as few lines as they need."""
    lines = [indent[:-1]]
    for it in items:
        if len(lines[-1]) + 1 + len(it) > width:
            lines.append(indent[:-1])
        lines[-1] += " " + it
    return lines


def word_named(text):
    return WORDS.get(text, text.capitalize()) if re.match(r"\w", text) else None


def rule_text(rule):
    """A rule in the form that the macro of the code has."""
    kind, *parts = rule
    if kind == "unit":
        word = word_named(parts[0])
        return f"(word {word})" if word else "(sign " + " ".join(f"'{char}'" for char in parts[0]) + ")"
    if kind == "front":
        return f"(front '{parts[0]}')"
    if kind == "test":
        if parts[0] == "LIFETIME":
            return "(lifetime)"
        return f"(subtree {SUBTREES[parts[0]]})" if parts[0] in SUBTREES else f"(unit {TESTS[parts[0]]})"
    if kind == "holds":
        return f"(opaque_holding {parts[1]})" if parts[0] == "OPAQUE" else f"(holding {SUBTREES[parts[0]]} {parts[1]})"
    return "(" + " ".join([kind, *map(str, parts)]) + ")"


def expression_text(part, is_argument=False):
    """An expression in the form that the definition has."""
    kind = part[0]
    if kind in ("choice", "sequence"):
        text = {"choice": "one_of", "sequence": "all_of"}[kind] + " (" + " ∷ ".join(map(expression_text, part[1])) + " ∷ [])"
    elif kind == "unit":
        word = word_named(part[1])
        text = f"word it.{word}" if word else f'sign (codes "{part[1]}")'
    elif kind == "front":
        text = f'front (codes "{part[1]}")'
    elif kind == "test":
        if part[1] == "LIFETIME":
            return "lifetime"
        text = f"subtree {SUBTREES[part[1]]}" if part[1] in SUBTREES else f"unit test.{TESTS[part[1]]}"
    elif kind == "holds":
        text = f"opaque_holding {part[2]}" if part[1] == "OPAQUE" else f"holding {SUBTREES[part[1]]} {part[2]}"
    elif part == ("never", ("test", "ANY")):
        return "at_end"
    elif kind == "empty":
        return "nothing"
    else:
        text = f"name {part[1]}" if kind == "name" else f"{kind} {expression_text(part[1], True)}"
    return f"({text})" if is_argument else text


def proof_text(part, places):
    """That the part is laid out: the places of its parts, and the same of each."""
    if part[0] in LEAVES:
        return "refl"
    parts = part[1:]
    form = "(both" if len(parts) == 2 else "(one"
    return " ".join([form, *[str(places[it]) for it in parts], "refl", *[proof_text(it, places) for it in parts]]) + ")"


def equation(left, text):
    line = f"{left} = {text}"
    return [line] if len(line) <= WIDTH else [f"{left} =", *filled(text.split(" "))]


HEAD = """//! Rust's grammar as one table of rules, laid out name by name: the rule of a name, and then those of its expression. docs/GRAMMAR.md says
//! what each name means, and `checks/lay_out_grammar.py` makes this file of it.
use crate::rule::Rule;
use crate::test::Test;
use crate::unit::Unit;
use crate::words::Word;
use tt::DelimiterKind;

// One rule.
macro_rules! rule {
    (empty) => { Rule::Empty };
    (word $word:ident) => { Rule::Unit(Test::Is(Unit::Word(Word::$word))) };
    (sign $one:literal) => { Rule::Unit(Test::Is(Unit::Punct($one))) };
    (sign $one:literal $two:literal) => { Rule::Unit(Test::Is(Unit::TwoPuncts($one, $two))) };
    (sign $one:literal $two:literal $three:literal) => {
        Rule::Unit(Test::Is(Unit::ThreePuncts($one, $two, $three)))
    };
    (front $char:literal) => { Rule::Unit(Test::Front($char)) };
    (lifetime) => { Rule::Unit(Test::Is(Unit::Lifetime)) };
    (subtree $kind:ident) => { Rule::Unit(Test::Is(Unit::Subtree(DelimiterKind::$kind))) };
    (unit $test:ident) => { Rule::Unit(Test::$test) };
    (holding $kind:ident $name:literal) => { Rule::Unit(Test::Holding(DelimiterKind::$kind, $name)) };
    (opaque_holding $name:literal) => { Rule::Unit(Test::OpaqueHolding($name)) };
    (name $other:literal) => { Rule::Name($other) };
    (sequence $first:literal $second:literal) => { Rule::Sequence($first, $second) };
    (choice $first:literal $other:literal) => { Rule::Choice($first, $other) };
    (many $part:literal) => { Rule::ZeroOrMore($part) };
    (never $part:literal) => { Rule::Not($part) };
}

// Rules one after another.
macro_rules! rules {
    ($(($($rule:tt)*))*) => { [$(rule!($($rule)*)),*] };
}
"""


HEAD_OF_MARKS = """//! Which rules of Rust's grammar take a unit at least, and their ranks. `checks/lay_out_grammar.py` makes this file.
use crate::rule::Mark;

// One mark: `some` of what takes a unit at least, `none` of what may take nothing, and the rank.
macro_rules! mark {
    (some $rank:literal) => { Mark::TakesSome($rank) };
    (none $rank:literal) => { Mark::MayTakeNone($rank) };
}

// Marks one after another.
macro_rules! marks {
    ($($mark:ident $rank:literal)*) => { [$(mark!($mark $rank)),*] };
}
"""


def code_of_marks(rules):
    marks = [f"{'none' if loose else 'some'} {rank}" for loose, rank in marks_of(rules)]
    return [*HEAD_OF_MARKS.splitlines(), "", "/// The marks of the rules.",
            f"pub(crate) static MARKS: [Mark; {len(rules)}] = marks! {{", *filled(marks), "};"]


HEAD_OF_KNOWN = """//! What is known of the rules of Rust's grammar before they are read. `checks/lay_out_grammar.py` makes this file.
use crate::known::Known;

// Of one rule after another the kinds of units before which it fails, and those before which it takes nothing.
macro_rules! known {
    ($($fails:literal $idles:literal)*) => { [$(Known { fails: $fails, idles: $idles }),*] };
}
"""


def code_of_known(rules):
    known = [f"{fails:#x} {idles:#x}" for fails, idles in known_of(rules)]
    return [*HEAD_OF_KNOWN.splitlines(), "", "/// What is known of them.",
            f"pub(crate) static KNOWN: [Known; {len(rules)}] = known! {{", *filled(known), "};"]


def code(names, rules, starts):
    lines = HEAD.splitlines()
    lines += ["", "/// The rules.", f"pub(crate) static RULES: [Rule; {len(rules)}] = rules! {{"]
    ends = [*list(starts.values())[1:], len(rules)]
    for name, end in zip(names, ends):
        lines += filled([f"/* {name}, from {starts[name]} on */", *map(rule_text, rules[starts[name]:end])])
    return [*lines, "};"]


HEAD_OF_NAMES = """//! The names of Rust's grammar, in the order of the table. `checks/lay_out_grammar.py` makes this file."""


def code_of_names(starts):
    lines = [HEAD_OF_NAMES]
    for name in NAMED:
        lines += ["", f"/// Where `{name}` is laid out.", f"pub const {name.upper()}: usize = {starts[name]};"]
    return [*lines, "", "/// Each name with the index of its rule in the table, in the order of the indices.",
            f"pub static NAMES: [(usize, &str); {len(starts)}] = [", *[f'    ({at}, "{name}"),' for name, at in starts.items()], "];"]


def definition_of_names(names, starts):
    return ["-- The names of Rust's grammar, and where each is laid out. Made by checks/lay_out_grammar.py.",
            "use Rattle.std.specs.Prelude.{ℕ}", "",
            "-- the names, as docs/GRAMMAR.md has them", "pub data Name : Type 0 where", *[f"  {name} : Name" for name in names], "",
            "-- where a name is laid out", "abbrev pub start : Name → ℕ", *[f"start {name} = {starts[name]}" for name in names]]


def definition(names):
    lines = ["-- Rust's grammar: the expression of each name, as in docs/GRAMMAR.md. Made by checks/lay_out_grammar.py.",
             "use Rattle.std.specs.Prelude.{[], ◌∷◌, codes}",
             "use Rattle.tt.specs.Types.DelimiterKind.TheVariants.{Parenthesis, Brace, Bracket}",
             "use Rattle.mbe_grammar.specs.declared.test.Test.TheVariants as test",
             "use Rattle.mbe_grammar.specs.declared.words.Word.TheVariants as it",
             "use Rattle.mbe_grammar.specs.Expressions.{Expression, nothing, unit, name, many, never, maybe, ahead, all_of, one_of, word, "
             "lifetime, subtree, holding, opaque_holding, at_end, sign, front}",
             "use Rattle.mbe_grammar.specs.Names.{Name, " + ", ".join(names) + "}", "",
             "-- the expression of a name", "abbrev pub stands : Name → Expression"]
    for name, (_, part) in names.items():
        lines += equation(f"stands {name}", expression_text(part))
    return lines


def proof(names, rules, starts, places):
    lines = ["-- The table lays out the expression of each name of Rust's grammar. Made by checks/lay_out_grammar.py.",
             "use Rattle.std.proofs.Common.{ℕ, refl}",
             "use Rattle.mbe_grammar.specs.declared.rust.TheConstants.{RULES}",
             "use Rattle.mbe_grammar.specs.Layout.{AreLaid}",
             "use Rattle.mbe_grammar.specs.Names.{start, " + ", ".join(names) + "}",
             "use Rattle.mbe_grammar.specs.Rust.{stands}", "",
             "-- Two parts at their places.",
             "both : {R : ℕ → ℕ → Type 0} {A B : ℕ → Type 0} (n m : ℕ) → R n m → A n → B m → (k : ℕ) × (l : ℕ) × R k l × A k × B l",
             "both n m e a b = (n, m, e, a, b)", "",
             "-- One part at its place.",
             "one : {R A : ℕ → Type 0} (n : ℕ) → R n → A n → (k : ℕ) × R k × A k",
             "one n e a = (n, e, a)", "",
             "pub are_laid : AreLaid RULES start stands"]
    for name, (_, part) in names.items():
        lines += equation(f"are_laid {name}", f"one {rules[starts[name]][1]} refl {proof_text(plain(part), places)}")
    return lines


def main():
    names = lines_of_page()
    rules, starts, places = laid(names)
    made = {
        "src/rust.rt": code(names, rules, starts),
        "src/rust_marks.rt": code_of_marks(rules),
        "src/rust_known.rt": code_of_known(rules),
        "src/rust_names.rt": code_of_names(starts),
        "specs/Names.antt": definition_of_names(names, starts),
        "specs/Rust.antt": definition(names),
        "proofs/RustLaid.antt": proof(names, rules, starts, places),
    }
    for path, lines in made.items():
        (CRATE / path).write_text("\n".join(lines) + "\n")


main()
