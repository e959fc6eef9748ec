"""Definitions of plain_pieces.py turned: what is turned, the text that is replaced, and the text in its place."""
COUNTS = "(parts, symbols, packed)"
ALIKE = "min(len(again), len(data))"
PIECES = [
    ("another version", 'MARK = b"tt\\x01\\x00"', 'MARK = b"tt\\x02\\x00"'),
    ("symbols are counted before parts", f"for counted in {COUNTS})", "for counted in (symbols, parts, packed))"),
    ("a count has two bytes", "number(len(counted), 4)", "number(len(counted), 2)"),
    ("a part begins with its item", "for part in parts for value in part)", "for part in parts for value in part[1:] + part[:1])"),
    ("a symbol counts its characters", "number(len(text), 4) + text for text", "number(len(text.decode()), 4) + text for text"),
    ("symbols precede parts", "+ table + texts + packed", "+ texts + table + packed"),
]
READING = [
    ("another format shows at the mark", 'raise WrongBytes(place, "another format")', 'raise WrongBytes(0, "another format")'),
    ("too short shows at the end of the bytes", "WrongBytes(len(data), \"too short\")", "WrongBytes(len(data) - 1, \"too short\")"),
    ("no text shows at the text's first byte", "reader.here() - len(data) + wrong.start", "reader.here() - len(data)"),
    ("no text shows behind the text", "reader.here() - len(data) + wrong.start", "reader.here()"),
    ("no token shows behind it", 'raise WrongBytes(place, "no tree")', 'raise WrongBytes(self.here(), "no tree")'),
    ("no tree shows at the packed bytes", 'raise WrongBytes(reader.here(), "no tree")', 'raise WrongBytes(place, "no tree")'),
    ("stored otherwise shows at the end", "alike = next(", f"alike = {ALIKE} or next("),
    ("what is stored otherwise is a tree", "if again != data:", "if again != data and False:"),
    ("bytes behind the end are passed over", "if again != data:", "if again != data[:len(again)]:"),
    ("tables may be others", "if again != data:", "if again[-byte_count:] != data[-byte_count:]:"),
]
TOKENS = [
    ("a span may end at 2^32", "start + length > MOST_OFFSET", "start + length > MOST_OFFSET + 1"),
    ("a part that there is not is the last", "if part >= len(self.parts) or", "part = min(part, len(self.parts) - 1)\n        if"),
    ("a symbol that there is not is the last", "if index >= len(self.symbols):", "index = min(index, len(self.symbols) - 1)\n        if index < 0:"),
    ("a kind of literal that there is not is an error", "kind = self.at(LITERAL_KINDS, high)", "kind = self.at(LITERAL_KINDS, min(high, 10))"),
    ("a suffix may cut a character", "suffix_len > 0 and data[-suffix_len] & 0xC0 == 0x80", "suffix_len < 0"),
    ("a punct may be no character", "if high >= len(SPACINGS) or code >= 0x110000 or", "code %= 0x110000\n            if high >= len(SPACINGS) or"),
    ("a kind of delimiter that there is not is opaque", "kind = self.at(DELIMITER_KINDS, high)", "kind = self.at(DELIMITER_KINDS, min(high, 4))"),
]
MUTANTS = PIECES + READING + TOKENS
HELPERS = ""
