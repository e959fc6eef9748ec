"""Rust texts of one line, made by chance (docs/CONSOLE.md)."""
from plain_text import WrongText, tree_of_text

# Tokens, some of which read otherwise if no blank is behind them.
TOKENS = (
    "a", "r", "b", "c", "br", "e1", "_", "_x", "fn", "日", "r#a", "r#_", "r#1", "'a", "'_", "'r#a", "'1", "'r", "'a'",
    "'日'", "'1'", "'", "'\\n'", "'\\x7f'", "'\\x80'", "'\\u{1F_980}'", "'\\u{d800}'", "'\\q'", "'ab'", "''", "'\\''",
    "b'a'", "b'\\xff'", "b'é'", "b'\\u{41}'", "b''", '""', '"a b"', '"\\""', '"\\x4g"', '"é\\u{0}"', '"\\u{_1}"',
    '"\\u{1__}"', '"\\u{}"', '"\\u{1234567}"', '"a', 'b"a"', 'b"\\xff"', 'b"é"', 'c"a"', 'c"\\0"', 'c"\\xff"', 'c"\0"',
    'r"a"', 'r#"a"b"#', 'r##"a"#b"##', 'r#"a"', "r##a", 'br"a"', 'br#"é"#', 'cr"a"', 'cr#"\0"#', "1", "0", "1_0", "1.0",
    "1.", "1.e", "1e3", "1E+3", "1e", "1e_", "1.5e-3", "0b1", "0b12", "0b", "0b_", "0o7", "0o8", "0x1f", "0x", "0x1.0",
    "0b1e3", "1u8", "1_u8", "2.5f32", "1_", "/", "//", "// a", "/// a", "//// a", "//! a", "///", "/**/", "/* a */",
    "/** a */", "/*** a */", "/*! a */", "/* /* */", "/* /* */ */", "*/", '/// "# "##', "é", "🦀", "a🦀", "\\", "`", "\0",
    "\r", "\x85", "\u200e", "//a\r", "/// a\r", "/// \rb", "/// a\r\r", '"\r"', '"\\\r"', "->", "=>", "..", "...", "..=", "::", "&&",
    "a#", "'a#", '#"a"', '"a"_', "1..2", '"\\x4"', '"\\u{0000041}"', "##", "r#crate", "r#self", "r#super", "r#Self",
    "r#crate_", "'r#crate", "'r#_", "'r#selfs", "r" + "#" * 255 + '"a"' + "#" * 255, "r" + "#" * 256 + '"a"' + "#" * 256,
    "r" + "#" * 256 + '"a', '/// "' + "#" * 254, '/// "' + "#" * 255, '/** "' + "#" * 255 + "*/", "1" + "u" * 255,
    "1" + "u" * 256, "1.5" + "é" * 128, '"a"' + "u" * 256,
)
PUNCTS = "=<>!&|~@.,;:#$?+-*/%^"
BRACKETS = ("()", "[]", "{}")


def is_read(text):
    """Whether a text is that of a tree."""
    try:
        tree_of_text(text)
    except WrongText:
        return False
    return True


FINE = tuple(filter(is_read, TOKENS))


class Texts:
    """Texts made by chance; `pick`, `below` and `happens` are those of the values."""

    def token_text(self):
        """A token, mostly one that can be read alone."""
        return self.pick(self.pick((TOKENS, FINE, FINE, FINE, FINE, PUNCTS, PUNCTS, PUNCTS)))

    def rust_text(self, most):
        """Tokens with blanks between them or none, mostly within brackets that match."""
        text = ""
        while most > 0 and self.happens(0.9):
            most -= 1
            blank = self.pick(("", " ", " ", " ", "\t", "/**/"))
            if self.happens(0.2):
                left, right = self.pick(BRACKETS)
                text += left + self.rust_text(most // 2) + (self.pick("()[]{}") if self.happens(0.03) else right) + blank
                text += self.pick(")]}") if self.happens(0.01) else ""
            else:
                text += self.token_text() + blank
        return text
