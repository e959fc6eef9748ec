"""Rust programs by chance, whose macros have fragments that are supported: `made(seed)`.

A program prints the values that its macros write. Its macros write expressions, statements, items and macros; they have
repetitions, several rules, and call themselves and each other; they are defined at the top, in modules and in functions.
Some of their calls are under conditions.
"""
import random

OPERATORS = ("+", "-", "*", "|", "&", "^")
SEPARATORS = (",", ";", "=>", "")
HOLD = ("all()", "not(any())", "any(all(), unix)")
HEAD = """#[derive(Clone, Copy, PartialEq)]
struct P { a: i64 }
impl P {
    fn of(a: i64) -> P { P { a } }
    fn b(self, b: i64) -> i64 { self.a - b }
}
struct T<const A: usize>;
impl<const A: usize> T<A> {
    const N: i64 = A as i64;
}
"""
FAIL = ("any()", "not(all())", "all(any(), unix)")


class Maker:
    """What is made so far."""

    def __init__(self, seed):
        self.chance = random.Random(seed)
        self.lines = []
        self.values = []
        self.names = 0

    def name(self, first):
        """A new name."""
        self.names += 1
        return f"{first}{self.names}"

    def number(self):
        """A small number."""
        return str(self.chance.randrange(10))

    def operator(self):
        """An operator that cannot overflow with small numbers."""
        return self.chance.choice(OPERATORS)

    def expression(self, operands):
        """An expression over these, some of them in parentheses."""
        words = [operands[0]]
        for it in operands[1:]:
            words += [self.operator(), it]
        text = " ".join(words)
        return f"({text})" if self.chance.random() < 0.3 else text

    def operand(self, calls):
        """A number, or a call of one of these macros that write expressions."""
        if calls and self.chance.random() < 0.5:
            return self.chance.choice(calls)(self)
        return self.number()

    # ---- macros that write expressions: each answers what makes a call of it

    def folding(self):
        """One that repeats an operator."""
        name, separator = self.name("fold"), self.chance.choice(SEPARATORS)
        operator, bracket = self.operator(), self.chance.choice(("()", "[]", "{}"))
        self.lines.append(
            f"macro_rules! {name} {{ ($first:literal $({separator} $more:literal)*) => {{ $first $({operator} $more)* }}; }}"
        )

        def call(maker):
            words = [maker.number() for _ in range(maker.chance.randint(1, 4))]
            return f"{name}!{bracket[0]}{f' {separator} '.join(words)}{bracket[1]}"

        return call

    def counting(self):
        """One that calls itself."""
        name, operator = self.name("count"), self.chance.choice(("+", "^"))
        self.lines.append(
            f"macro_rules! {name} {{ () => {{ 0 }}; ($a:tt $($b:tt)*) => {{ 1 {operator} {name}!($($b)*) }}; }}"
        )

        def call(maker):
            trees = ("a", "(b c)", "::", "'d", "'e'", "\"f\"", "[1, 2]", "-", "=>", "{}", "..=", "1.5")
            return f"{name}!({' '.join(maker.chance.choice(trees) for _ in range(maker.chance.randint(0, 5)))})"

        return call

    def choosing(self):
        """One of several rules, which differ by words."""
        name, words = self.name("choose"), ("add", "negate", "first", "both")
        self.lines.append(
            f"macro_rules! {name} {{ (add $a:tt $b:tt) => {{ $a {self.operator()} $b }}; (negate $a:literal) => {{ -$a }}; "
            f"(first $a:literal $(, $b:tt)*) => {{ $a }}; (both $({{ $a:literal : $b:literal }})+) => {{ [$($a {self.operator()} $b),+].len() as i64 }}; }}"
        )

        def call(maker):
            inputs = {
                "add": f"{maker.number()} ({maker.expression([maker.number(), maker.number()])})",
                "negate": maker.number(),
                "first": f"{maker.number()}, x, [y]",
                "both": "{1 : 2} {3 : 4}",
            }
            word = maker.chance.choice(words)
            return f"{name}!({word} {inputs[word]})"

        return call

    # ---- macros that write statements and items

    def statements(self, calls):
        """A function with statements that a macro writes."""
        name, function = self.name("set"), self.name("f")
        end = self.chance.choice(("", "$(;)?"))
        self.lines.append(f"macro_rules! {name} {{ ($($name:ident = $value:tt);* {end}) => {{ $(let $name: i64 = $value;)* }}; }}")
        names = [self.name("v") for _ in range(self.chance.randint(1, 3))]
        bindings = "; ".join(f"{it} = {self.number()}" for it in names)
        call = self.chance.choice((f"{name}! {{ {bindings} }}", f"{name}!({bindings});"))
        last = self.expression([self.operand(calls) for _ in range(self.chance.randint(1, 3))] + ["0"])
        # what begins with a call in braces would be a statement, and not the whole value
        self.lines.append(f"fn {function}() -> i64 {{\n    {call}\n    let x = {self.operand(calls)};\n    x + {last} // the value\n}}")
        self.values.append(f"{function}()")

    def blocks(self, calls):
        """Functions whose value is a call, or begins or ends with one, of a macro that writes blocks."""
        name, operator = self.name("block"), self.operator()
        self.lines.append(
            f"macro_rules! {name} {{ ($a:literal) => {{ {{ $a }} {operator} 1 }}; (if $a:literal) => {{ if $a > 4 {{ 1 }} else {{ 2 }} }}; "
            f"(cast $a:literal) => {{ unsafe {{ $a as u8 }} as i64 }}; (sum $a:literal) => {{ $a {operator} 2 }}; (block $a:literal) => {{ {{ $a }} }}; "
            f"(call $a:literal) => {{ {name}!(block $a) {operator} {name}!($a) }}; "
            f"(deep $a:literal) => {{ {name}!(block $a) }}; (deeper $a:literal) => {{ {name}!(deep $a) {operator} {name}!(if $a) }}; }}"
        )

        def call(maker):
            bracket = maker.chance.choice(("()", "[]"))
            word = maker.chance.choice(("", "if ", "cast ", "sum ", "block ", "call ", "deep ", "deeper "))
            return f"{name}!{bracket[0]}{word}{maker.number()}{bracket[1]}"

        for _ in range(self.chance.randint(2, 5)):
            function, one, other = self.name("f"), call(self), self.operand([*calls, call])
            value = self.chance.choice((
                f"{one}", f"{one} {self.operator()} {other}", f"0 {self.operator()} {other} {self.operator()} {one}", f"i64::from({one} == {one})",
                f"let x = {one}; x {self.operator()} {one}", f"match {self.number()} {{ 0..5 => {one}, _ => {one} }}", f"[{one}, {other}][0]",
                f"if true {{ {one} }} else {{ {one} }}", f"let mut x = {other}; x = {one}; x", f"{name}! {{ block {self.number()} }}.min({other})",
            ))
            self.lines.append(f"fn {function}() -> i64 {{ {value} }}")
            self.values.append(f"{function}()")

    def shapes(self, piece):
        """What the body of a function may do with a piece, an expression of numbers: first the forms in which it may be no block."""
        sign = self.operator()
        return (
            f"{piece} {sign} 3", f"{piece} as u8 as i64", f"{piece}.wrapping_mul(3)", f"{piece} << 1", f"{piece} as i64 {sign} 2", f"{piece}.pow(2)",
            f"for x in 0..{piece} {{ return x {sign} 2; }} 9",
        ), (
            f"{piece}", f"3 {sign} {piece}", f"-{piece}", f"!{piece}", f"let x = {piece}; x", f"let x: i64 = {piece} {sign} 1; x",
            f"let mut x = 0; x += {piece}; x", f"return {piece};", f"[{piece}, 5][0]", f"[4, 5, {piece}].iter().sum()", f"i64::max({piece}, 2)",
            f"if {piece} == 7 {{ {piece} }} else {{ 4 }}", f"if 3 < {piece} {{ 1 }} else {{ {piece} }}", f"match {piece} {{ 0..5 => {piece}, _ => 4 {sign} {piece} }}",
            f"match 5 {{ x if {piece} > x => x, _ => {piece} }}", f"(0..{piece}).count() as i64", f"{{ {piece} }}", f"(|x: i64| {piece} {sign} x)(3)",
            f"P {{ a: {piece} }}.a", f"P {{ a: {piece} {sign} 1 }}.a", f"*&{piece}", f"i64::from({piece} < 4)", f"i64::from(5 == {piece} && {piece} > 1)",
            f"format!(\"{{}}\", {piece}).len() as i64", f"assert!({piece} == {piece}); 3", f"let x = [1, 2]; x[{piece} as usize & 1]",
            f"'a: loop {{ break 'a {piece}; }}", f"while {piece} > 100 {{ return 3; }} 8",
            f"let Some(x) = Some({piece}) else {{ return 3 }}; x", f"if let 1..4 = {piece} {{ 3 }} else {{ 5 }}", f"5.min({piece})", f"P::of({piece}).a {sign} 2",
            f"1 {sign} {piece} as i64", f"({piece}, 5).0 {sign} 2",
        )

    def pieces(self, calls):
        """Functions that a macro writes with what its variables took, in many places."""
        name, forward = self.name("piece"), self.name("hand")
        kind = self.chance.choice(("expr", "expr", "expr_2021", "literal"))
        first, others = self.shapes("$x")
        bodies = "; ".join(
            f"({number} $f:ident $x:{kind}) => {{ fn $f() -> i64 {{ {self.chance.choice(first if number < 2 else others)} }} }}" for number in range(5)
        )
        self.lines.append(f"macro_rules! {name} {{ {bodies} }}")
        self.lines.append(f"macro_rules! {forward} {{ ($n:tt $f:ident $x:{kind}) => {{ {name}! {{ $n $f $x }} }}; }}")
        literals = ["-1i64", "-3i64", "4i64", "-0x2i64"]
        given = literals if kind == "literal" else [
            *literals, f"1i64 {self.operator()} 2", "P { a: 3 }.a", "P { a: 2 }.b(1)", "P::of(3).b(2)", "3 as i64", "i64::max(1, 2)", "[1i64, 2][0]", "(3i64)",
            "T::<3>::N", "<T<3>>::N", "5i64 & 3 | 4", "!3i64", "(2i64, 3i64).1", "vec![3i64, 4][1]", "(|x: i64| x)(3)", "5i64 - 2 - 1", "*&4i64",
        ]
        blocks = ["{ 3i64 }", "{ 3i64 } + 1", "if true { 3i64 } else { 4 }", "if true { 3i64 } else { 4 } + 1", "match 3i64 { x => x }", "unsafe { 3i64 } + 1", "'b: { 3i64 }"]
        if calls and kind != "literal":
            given += [f"i64::max({self.operand(calls)}, 1) + 1", f"1i64 + {self.operand(calls)}"]
        for _ in range(self.chance.randint(2, 4)):
            function, number = self.name("f"), self.chance.randrange(5)
            piece = self.chance.choice(given if number < 2 or kind == "literal" else given + blocks)
            self.lines.append(f"{self.chance.choice((name, forward))}! {{ {number} {function} {piece} }}")
            self.values.append(f"{function}()")

    def passed_statements(self, calls):
        """A function with statements that are calls that variables took."""
        step, each, function = self.name("step"), self.name("each"), self.name("f")
        self.lines.append(f"macro_rules! {step} {{ ($x:ident $value:literal) => {{ let y = $value; $x = ($x {self.operator()} y) % 1000; }} }}")
        first, last = self.chance.choice((("$($e;)*", ""), ("$(let z = 3; $e; $e;)*", ""), ("if true { $($e;)* }", "")))
        self.lines.append(f"macro_rules! {each} {{ ($($e:expr),*) => {{ {first} {last} }}; }}")
        steps = ", ".join(f"{step}!(x {self.number()})" for _ in range(self.chance.randint(1, 3)))
        call = self.chance.choice((f"{each}! {{ {steps} }}", f"{each}!({steps});"))
        self.lines.append(f"fn {function}() -> i64 {{ let mut x = 1i64; {call} x + {self.operand(calls)} }}")
        self.values.append(f"{function}()")

    def generics(self):
        """Items whose headers have braces in angle brackets, and calls in the braces behind them."""
        value, has, it = self.name("value"), self.name("Has").title(), self.name("It").title()
        self.lines.append(f"macro_rules! {value} {{ ($name:ident $value:literal) => {{ const $name: i64 = $value; }} }}")
        self.lines.append(f"struct {it}; trait {has}<const A: usize, const B: usize> {{ const V: i64; }}")
        given = self.chance.choice(("{ 1 + 1 }, 3", "1, { 2 }", "{ 1 }, { 2 }", "{ 1 << 2 }, { 4 >> 1 }"))
        self.lines.append(f"impl {has}<{given}> for {it} {{ {self.chance.choice((f'{value}!(V {self.number()});', f'{value}! {{ V {self.number()} }}'))} }}")
        self.values.append(f"<{it} as {has}<{given}>>::V")

    def constants(self, calls):
        """Items that a macro writes, in braces or with a `;` behind the call."""
        name = self.name("constants")
        self.lines.append(f"macro_rules! {name} {{ ($($name:ident $(: $value:literal)?),+ $(,)?) => {{ $(pub const $name: i64 = 0 $(+ $value)?;)+ }}; }}")
        names = [self.name("A") for _ in range(self.chance.randint(1, 3))]
        given = ", ".join(it + (f": {self.number()}" if self.chance.random() < 0.6 else "") for it in names)
        self.lines.append(self.chance.choice((f"{name}! {{ {given} }}", f"{name}!({given},);")))
        self.values += names
        constant = self.name("A")
        self.lines.append(f"const {constant}: i64 = {self.expression([self.operand(calls) for _ in range(3)])};")
        self.values.append(constant)

    def defining(self):
        """A macro that a macro defines."""
        name, made, constant = self.name("define"), self.name("made"), self.name("A")
        self.lines.append(f"macro_rules! {name} {{ ($name:ident, $value:literal) => {{ macro_rules! $name {{ () => {{ $value }}; (twice) => {{ 2 * $name!() }}; }} }}; }}")
        self.lines.append(f"{name}! {{ {made}, {self.number()} }}")
        self.lines.append(f"const {constant}: i64 = 3 * {made}!({self.chance.choice(('', 'twice'))});")
        self.values.append(constant)

    def modules(self):
        """A macro that a module defines again, with the attribute or without."""
        name, used = self.name("scoped"), self.chance.random() < 0.5
        first, second, third = self.name("A"), self.name("A"), self.name("A")
        module = self.name("inner")
        self.lines.append(f"macro_rules! {name} {{ () => {{ {self.number()} }}; }}\nconst {first}: i64 = {name}!();")
        self.lines.append(
            ("#[macro_use]\n" if used else "")
            + f"mod {module} {{\n    macro_rules! {name} {{ () => {{ {self.number()} + 1 }}; }}\n    pub const {second}: i64 = 2 * {name}!();\n}}"
        )
        self.lines.append(f"const {third}: i64 = 2 * {name}!();")
        self.values += [first, f"{module}::{second}", third]

    def exports(self, calls):
        """A macro that the crate exports, and one of the same name in a function."""
        name, user = self.name("shared"), self.name("user")
        first, second = self.name("f"), self.name("f")
        exported = f"#[macro_export]\nmacro_rules! {name} {{ () => {{ {self.number()} }}; (with $a:tt) => {{ $a {self.operator()} {self.number()} }}; }}"
        lines = [
            f"fn {first}() -> i64 {{ crate::{name}!() {self.operator()} crate::{name}!(with {self.number()}) {self.operator()} {self.operand(calls)} }}",
            f"macro_rules! {user} {{ () => {{ $crate::{name}!() }}; ($a:literal) => {{ $crate::{name}! {{ with $a }} }}; }}",
            self.chance.choice((exported, f"mod {self.name('inner')} {{\n    {exported}\n}}")),
        ]
        self.chance.shuffle(lines)
        self.lines += lines
        terms = [f"{user}!()", f"{user}!({self.number()})", f"{name}!()", f"crate::{name}!()", f"crate::{name}!(with {self.number()})"]
        self.lines.append(
            f"fn {second}() -> i64 {{\n    macro_rules! {name} {{ () => {{ {self.number()} + 10 }}; }}\n"
            f"    0 {self.operator()} {f' {self.operator()} '.join(self.chance.sample(terms, 3))}\n}}"
        )
        self.values += [f"{first}()", f"{second}()"]

    def condition(self, holds):
        """Attributes of which a condition is one."""
        first = f"#[cfg({self.chance.choice(HOLD if holds else FAIL)})]"
        return first + self.chance.choice(("", " ", f" #[cfg({self.chance.choice(HOLD)})]"))

    def conditions(self, calls):
        """Items and statements that macros write under conditions, of which some hold."""
        items, steps, function = self.name("items"), self.name("steps"), self.name("f")
        first, second = self.name("A"), self.name("A")
        bump = f"{self.name('bump')}"
        self.lines.append(f"macro_rules! {items} {{ ($a:ident $b:ident $v:literal) => {{ pub const $a: i64 = $v; pub const $b: i64 = $a {self.operator()} 1; }}; }}")
        for holds in self.chance.sample((True, False), 2):
            self.lines.append(f"{self.condition(holds)} {items}! {{ {first} {second} {self.number()} }}")
        self.values += [first, second]
        last = self.chance.choice(("", ";"))
        self.lines.append(f"macro_rules! {bump} {{ ($x:ident) => {{ $x = $x {self.operator()} 1 }}; }}")
        self.lines.append(
            f"macro_rules! {steps} {{ ($x:ident $v:literal) => {{ let y = $v; {self.condition(True)} {bump}!($x); if y > 4 {{ $x += y }} $x = $x {self.operator()} y{last} }}; }}"
        )
        body = " ".join(f"{self.condition(holds)} {steps}!(x {self.number()});" for holds in self.chance.sample((True, True, False), 3))
        self.lines.append(f"fn {function}() -> i64 {{ let mut x = {self.operand(calls)}; {body} x }}")
        self.values.append(f"{function}()")


def made(seed):
    """The program of a number."""
    maker = Maker(seed)
    calls = [make() for make in maker.chance.sample((maker.folding, maker.counting, maker.choosing), maker.chance.randint(1, 3))]
    for _ in range(maker.chance.randint(2, 6)):
        what = maker.chance.choice((
            "statements", "passed_statements", "blocks", "pieces", "constants", "conditions", "exports", "defining", "modules", "generics",
        ))
        getattr(maker, what)(*([calls] if what not in ("defining", "modules", "generics") else []))
    printed = "".join(f'    println!("{{}}", {it});\n' for it in maker.values)
    return HEAD + "\n".join(maker.lines) + f"\n\nfn main() {{\n{printed}}}\n"
