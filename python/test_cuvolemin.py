"""Tests of the module. What is expected was worked out by hand."""

import pathlib
import sys
import unittest

sys.path.insert(0, str(pathlib.Path(__file__).resolve().parent))

from cuvolemin import Call, Error, Tree, expand, expand_with, parse

PAIRS = "macro_rules! pairs { ($($x:ident),*) => { [$(($x, $x)),*] } }\n"


class Cuvolemin(unittest.TestCase):
    def is_fault(self, name, at, call, *arguments):
        with self.assertRaises(Error) as told:
            call(*arguments)
        self.assertEqual((told.exception.name, told.exception.at), (name, at))

    def test_a_text_is_read_and_written(self):
        self.assertEqual(parse("fn  first( a :u8 )->u8{a}// last").to_text(), "fn first(a: u8) -> u8 { a }")
        self.assertEqual(parse("").to_text(), "")

    def test_equal_trees_are_equal_bytes(self):
        one, other = parse("a b"), parse("a  b")
        self.assertEqual(one, Tree(bytes(one)))
        self.assertNotEqual(one, other)
        self.assertEqual(len({one, Tree(bytes(one)), other}), 2)
        self.assertEqual(one < other, bytes(one) < bytes(other))

    def test_faults_of_texts_have_places(self):
        self.is_fault("Unopened", 2, parse, "a ) b")
        self.is_fault("Mismatched", 2, parse, "( ]")
        self.is_fault("Unclosed", 3, parse, "é (")
        self.is_fault("NoDigits", 0, parse, "0x")
        self.is_fault("NotUtf8", 2, parse, b"ab\xff")

    def test_faults_of_bytes_have_places(self):
        data = bytes(parse("a"))
        self.is_fault("BytesTooShort", 3, Tree, data[:3])
        self.is_fault("BytesOfOtherFormat", 2, Tree, data[:2] + b"\x09" + data[3:])

    def test_a_macro_expands_an_input(self):
        arms = parse("($a:ident + $b:ident) => { $b - $a }; ($($x:tt),*) => { [$($x)*] }")
        self.assertEqual(arms.expand(parse("p + q")).to_text(), "q - p")
        self.assertEqual(arms.expand(parse("1, (2), c")).to_text(), "[1(2) c]")
        self.is_fault("NoMatch", 1, arms.expand, parse("1 2"))
        self.is_fault("BeginsNothing", 1, parse("(a) => {}; ($x) => {}").expand, parse("a"))
        self.is_fault("Ambiguous", 1, parse("(a) => {}; ($(b)? $(b)?) => {}").expand, parse("b"))

    def test_calls_in_a_text_are_expanded(self):
        text = PAIRS + "let  all = pairs!(a, b); // stays\n"
        self.assertEqual(expand(text), PAIRS + "let  all = [(a, a), (b, b)]; // stays\n")
        self.is_fault("NoMatch", len(PAIRS) + 10, expand, PAIRS + "pairs!(a, 1);")
        self.is_fault("NotUtf8", 1, expand, b"a\xff")

    def test_a_text_is_expanded_beside_its_findings(self):
        # m begins at byte 13, n at 57, the calls at 78 and 85, and the b of the second at 88
        rules = "macro_rules! m { ($x:ident) => { n!($x) } }\nmacro_rules! n { (a) => { 1 } }\n"
        made = expand_with(rules + "f(m!(a), m!(b));\n")
        self.assertEqual(made.text, rules + "f(1, n!(b));\n")
        self.assertEqual(made.findings, [(100, "n", 88, 57, 0, [("m", 85)], "`a` (rule 1)")])
        finding = made.findings[0]
        self.assertEqual((finding.name, finding.message), ("NoMatch", "No arm matches the input."))
        self.assertEqual((finding.trail, finding.is_warning), ([Call("m", 85)], False))
        self.assertEqual(expand_with(b""), ("", []))

    def test_each_warning_has_a_number(self):
        one = "macro_rules! m { () => { 1 } } "
        for text, number, at, detail in (
            ("macro_rules! m { () => {}; ($x) => {} } m!();", 84, 40, 0),
            ("#[rustc_builtin_macro] macro_rules! m { () => {} } f(m!());", 93, 53, 0),
            (one + "#[cfg(a)] macro_rules! m { () => { 2 } } f(m!());", 94, 74, 0),
            (one + "f(crate::m!());", 95, 40, 0),
            ("macro_rules! m { ($e:expr) => { { let x = 1; $e } } } fn f() { g(m!(x)) }", 96, 68, 38),
            ("macro_rules! m { () => {} } #[cfg(a)] m!();", 97, 38, 0),
        ):
            made = expand_with(text)
            finding = made.findings[-1]
            self.assertEqual((finding.number, finding.at, finding.detail, finding.trail), (number, at, detail, []), text)
            self.assertTrue(finding.is_warning)
            self.assertEqual(made.text == text, number != 96)

    def test_a_fault_has_the_number_of_its_arm(self):
        self.assertEqual(expand_with("macro_rules! m { () => {}; ($x) => {} }").findings, [(82, "m", 28, None, 1, [], None)])
        ambiguous = "macro_rules! m { (a) => {}; ($(b)? $(b)?) => {} } m!(b);"
        self.assertEqual(expand_with(ambiguous).findings, [(101, "m", 50, 13, 1, [], None)])

    def test_options_are_heeded(self):
        two = "macro_rules! a { () => { $crate::x } } macro_rules! b { () => { a!() } } "
        text = two + "f(a!(), b!()); v![a!()];"
        self.assertEqual(expand_with(text, root="std").text, two + "f(std::x, std::x); v![a!()];")
        self.assertEqual(expand_with(text, only="b").text, two + "f(a!(), a!()); v![a!()];")
        self.assertEqual(expand_with(text, everywhere=True).text, two + "f(crate::x, crate::x); v![crate::x];")
        self.assertEqual(expand_with(text, one_line=True).text, two + "f(crate :: x, crate :: x); v![a!()];")
        deep = expand_with(text, limit=1).findings
        self.assertEqual([(it.name, it.at, it.trail) for it in deep], [("TooDeep", 64, [("b", 81)])])
        long = expand_with(text, max_tokens=3).findings
        self.assertEqual([(it.name, it.at) for it in long], [("OverMaxTokens", 75), ("OverMaxTokens", 64)])

    def test_an_expansion_is_laid_out(self):
        rules = "macro_rules! all { ($($x:ident),*) => {\n    [\n        $(Some($x)),* // each\n    ]\n} }\n"
        text = rules + "fn f() {\n    g(all!(a, b))\n}\n"
        self.assertEqual(expand(text), rules + "fn f() {\n    g([\n        Some(a),\n        Some(b) // each\n    ])\n}\n")
        self.assertEqual(expand_with(text).text, expand(text))
        self.assertEqual(expand_with(text, one_line=True).text, rules + "fn f() {\n    g([Some (a) , Some (b)])\n}\n")

    def test_conditions_are_known(self):
        text = '#[cfg(all(b, k = "v"))] macro_rules! m(() => {1}); #[cfg(not(b))] macro_rules! m(() => {2}); f(m!());'
        for cfg, end, numbers in ((["b", b' k = "v" '], "f(1);", []), (['k="v"'], "f(m!());", [94]), ((), "f(m!());", [94])):
            made = expand_with(text, cfg=cfg)
            self.assertTrue(made.text.endswith(end), cfg)
            self.assertEqual([it.number for it in made.findings], numbers)
        for at, cfg in ((0, ["a b"]), (1, ["b", "k=v"]), (2, ["b", "c", ""]), (1, ["b", 'k="\0"'])):
            with self.assertRaises(Error) as told:
                expand_with(text, cfg=cfg)
            self.assertEqual((told.exception.name, told.exception.at), ("NoCfg", at))
        with self.assertRaises(TypeError):
            expand_with(text, cfg="b")

    def test_tokens_come_in_reading_order(self):
        tokens = parse('r#in += f({ "é" [] }) ;').tokens()
        self.assertEqual([(it.sort, it.kind, it.text, it.span.start, it.span.end) for it in tokens], [
            ("ident", "raw", "r#in", 0, 4),
            ("punct", "joint", "+", 5, 6),
            ("punct", "alone", "=", 6, 7),
            ("ident", "plain", "f", 8, 9),
            ("open", "parenthesis", "(", 9, 10),
            ("open", "brace", "{", 10, 11),
            ("literal", "str", '"é"', 12, 16),
            ("open", "bracket", "[", 17, 18),
            ("close", "bracket", "]", 18, 19),
            ("close", "brace", "}", 20, 21),
            ("close", "parenthesis", ")", 21, 22),
            ("punct", "alone", ";", 23, 24),
        ])  # fmt: skip
        self.assertEqual({it.span[2:] for it in tokens}, {(0, 0, 0)})
        self.assertEqual(parse("").tokens(), [])

    def test_literals_have_kinds(self):
        for text, kind in (
            ("b'a'", "byte"), ("'a'", "char"), ("1u8", "integer"), ("1.5", "float"), ('"a"', "str"), ('r#"a"#', "raw str"),
            ('b"a"', "byte str"), ('br"a"', "raw byte str"), ('c"a"', "C str"), ('cr"a"', "raw C str"),
        ):  # fmt: skip
            token, = parse(text).tokens()
            self.assertEqual(token, ("literal", kind, text, (0, len(text), 0, 0, 0)))

    def test_many_tokens_find_room(self):
        self.assertEqual([it.span.start for it in parse(";" * 1000).tokens()], list(range(1000)))

    def test_wrong_options_are_refused(self):
        self.is_fault("Unopened", 2, expand_with, "a ) b")
        for options in ({"root": b"a\xff"}, {"only": b"a\xff"}):
            with self.assertRaises(Error) as told:
                expand_with("a", **options)
            self.assertEqual((told.exception.name, told.exception.at), ("NotUtf8", 1))
        for options in ({"limit": -1}, {"max_tokens": 1 << 64}):
            with self.assertRaises(ValueError):
                expand_with("a", **options)

    def test_many_findings_find_room(self):
        text = "macro_rules! m { (a) => {} }\n" + "m!(b);\n" * 1000
        made = expand_with(text)
        self.assertEqual((made.text, [it.at for it in made.findings]), (text, [32 + 7 * count for count in range(1000)]))


if __name__ == "__main__":
    unittest.main()
