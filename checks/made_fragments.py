"""Short texts made by chance from the table of docs/GRAMMAR.md, and near it."""
import plain_grammar

DEPTH = 9
LONGEST = 14
# What no fragment takes.
END = "=>"
# The words for a test of the table; for brackets by the name that has them, and otherwise by `None`.
WORDS = {
    "IDENT": "a a a b b c r#fn raw auto union default safe".split(),
    "SEGMENT": "a a b c self Self super crate".split(),
    "LIFETIME": ["'a", "'b"],
    "LITERAL": ["1", "2", '"s"', "'c'", "1.5", 'b"s"', "2u8"],
    "TEXT": ['"C"'],
    "NUMBER": ["0", "1"],
    "BOOL": ["true", "false"],
    "BINARY": sorted(plain_grammar.BINARY),
    "ASSIGN": ["="] * 5 + sorted(plain_grammar.ASSIGN),
    "BEGINS": ["a", "1", "("],
}
INSIDE = {
    "PAREN": {
        None: ["()", "(a)", "(a, b)"], "visibility": ["(crate)", "(super)", "(in a)"], "function": ["()", "(a: u8)", "(self)"],
        "function_type": ["()", "(u8)"], "structure": ["()", "(u8)"], "bound": ["(a)"], "meta": ["(a)"], "type_path_segment": ["()", "(a)"],
    },
    "BRACK": {None: ["[a]", "[]"], "plain_type": ["[u8]", "[u8; 2]"], "attribute": ["[a]"], "trait_bound": ["[const]"], "postfix": ["[a]"]},
    "BRACE": {None: ["{}"], "use_tree": ["{a}", "{}"], "primary": ["{}", "{a}"], "macro_rules": ["{() => {}}"]},
}
WRONG = {"PAREN": ["(a b)", "(1 +)", "((a b))", "(,)"], "BRACK": ["[a b]", "[1 +]", "[(,)]"], "BRACE": ["{a b}", "{1 +}", "{(= a)}"]}
OTHERS = (
    "a b 1 \"s\" 'a self Self crate super _ true as async await break const continue dyn else enum extern fn for if impl in let loop match "
    "mod move mut pub ref return static struct trait type unsafe use where while box do yield try gen macro auto union default safe raw "
    "macro_rules () (a) [] [a] {} {a} + - * / % ^ ! & | && || << >> += -= *= /= %= ^= &= |= <<= >>= = == != > < >= <= @ . .. ... ..= , ; : "
    ":: -> <- => # ? ~"
).split()


def height(part, heights):
    """How deep an expression goes at least, by the known heights of names."""
    kind, inner = part
    if kind == "name":
        return 1 + heights.get(inner, DEPTH * DEPTH)
    if kind == "choice":
        return min(height(it, heights) for it in inner)
    if kind == "sequence":
        return max(height(it, heights) for it in inner)
    if kind == "+":
        return height(inner, heights)
    return DEPTH * DEPTH if inner == "OPAQUE" or kind == "held" and inner[0] == "OPAQUE" else 0


def heights_of_names():
    """How deep each name goes at least."""
    heights, before = {}, None
    while heights != before:
        before = heights
        heights = {name: height(part, before) for name, part in plain_grammar.NAMES.items()}
    return heights


HEIGHTS = heights_of_names()
# By the choice: for each alternative how deep it goes at least, and how likely it is.
CHOICES = {}


def alternatives(part, depth):
    """The alternatives of a choice that go no deeper than is left, or least deep, and how likely each is."""
    if id(part) not in CHOICES:
        CHOICES[id(part)] = [(it, height(it, HEIGHTS), 1 if str(it[1]).startswith("range") else 9) for it in part[1]]
    told = CHOICES[id(part)]
    most = max(min(deep for _, deep, _ in told), DEPTH - depth)
    some = [it for it in told if it[1] <= most]
    return [it for it, _, _ in some], [likely for _, _, likely in some]


class Maker:
    """Texts by chance."""

    def __init__(self, chance, longest=LONGEST):
        self.chance = chance
        self.longest = longest

    def words(self, name, depth=0):
        """The words for a name."""
        return self.part(plain_grammar.NAMES[name], name, depth)

    def part(self, part, name, depth):
        """The same of an expression in it."""
        kind, inner = part
        if kind == "name":
            return self.words(inner, depth + 1)
        if kind == "choice":
            return self.part(self.chance.choices(*alternatives(part, depth))[0], name, depth)
        if kind == "sequence":
            return [word for it in inner for word in self.part(it, name, depth)]
        if kind in "&!":
            return []
        if kind in "*+?":
            most = 0 if depth > DEPTH else 1 if kind == "?" else 2
            rounds = max(int(kind == "+"), self.chance.choice([0, 0, self.chance.randint(0, most)]))
            return [word for _ in range(rounds) for word in self.part(inner, name, depth)]
        return [self.word(kind, inner, name)] if inner not in ("EMPTY", "END") else []

    def word(self, kind, wanted, name):
        """A unit. One subtree of twelve contains what most names do not take."""
        if kind == "held":
            wanted = wanted[0]
            if self.chance.random() < 1 / 12:
                return self.chance.choice(WRONG[wanted])
        elif kind != "test":
            return wanted
        if wanted == "DELIM":
            wanted = self.chance.choice(list(INSIDE))
        if wanted in INSIDE:
            return self.chance.choice(INSIDE[wanted].get(name, INSIDE[wanted][None]))
        return self.chance.choice(WORDS[wanted])

    def beside(self, words):
        """The words with one removed, doubled, replaced or swapped."""
        place, way = self.chance.randrange(len(words)), self.chance.randrange(4)
        if way == 3:
            return words[:place] + words[place + 1 : place + 2] + words[place : place + 1] + words[place + 2 :]
        some = ([], [words[place]] * 2, [self.chance.choice(OTHERS)])[way]
        return words[:place] + some + words[place + 1 :]

    def piece(self, fragment):
        """The words of what the fragment takes."""
        words = []
        while not 0 < len(words) <= self.longest:
            words = self.words(plain_grammar.FRAGMENTS[fragment])
        return words

    def text(self, fragment):
        """The words of a text: what the fragment takes, or nearly so, and maybe others behind it."""
        words = self.piece(fragment)
        if self.chance.random() < 0.5:
            words = self.beside(words)
        if self.chance.random() < 0.5:
            words += [self.chance.choice(OTHERS) for _ in range(self.chance.randint(1, 2))]
        return words + self.chance.choice([[], [END], [END], [END]]) or [END]
