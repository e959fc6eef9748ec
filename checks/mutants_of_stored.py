"""Definitions of plain_stored.py turned: what is turned, the text that is replaced, and the text in its place."""
BY_USE = "values.sort(key=lambda value: -counts[value])"
OPEN_CLOSE = "yield tree.open_span.part()\n            yield tree.close.part()"
CLOSE_OPEN = "yield tree.close.part()\n            yield tree.open_span.part()"
TOP_PARTS = "[top.open_span.part(), top.close.part()]"
SHORT_HEADER = "is_short = kind <= 3 and count <= 255 and length == other"
FORMAT_1 = "byte_count <= 255 and length == 1 and 0 <= distance <= 2047"
FORMAT_2 = "byte_count <= 255 and 0 <= distance <= 7"
FORMAT_3 = "byte_count <= 4095 and 0 <= distance <= 255 and close_part <= 127"
TABLES = [
    *((f"{count} parts go by first use", "SHORT_PARTS = 15", f"SHORT_PARTS = {count}") for count in (14, 16)),
    *((f"{count} symbols go by first use", "SHORT_SYMBOLS = 63", f"SHORT_SYMBOLS = {count}") for count in (62, 64)),
    ("what is used as often goes by last use", BY_USE, f"values.reverse(); {BY_USE}"),
    ("what is used least goes in front", BY_USE, "values.sort(key=lambda value: counts[value])"),
    ("a header uses its close's part first", OPEN_CLOSE, CLOSE_OPEN),
    ("a header uses its open's part alone", OPEN_CLOSE, "yield tree.open_span.part()"),
    (
        "the top's parts count as used", "table(parts_used(top.children), SHORT_PARTS)",
        "table(parts_used([top]), SHORT_PARTS)",
    ),
    ("the top's equal parts are stored once", TOP_PARTS, f"list(dict.fromkeys({TOP_PARTS}))"),
    ("the top's parts are stored in the other order", TOP_PARTS, f"{TOP_PARTS}[::-1]"),
    (
        "an error uses no symbol", "if isinstance(tree, (Ident, Literal))",
        "if isinstance(tree, (Ident, Literal)) and getattr(tree, 'kind', '') != 'err'",
    ),
    (
        "a raw ident uses no symbol", "if isinstance(tree, (Ident, Literal))",
        "if isinstance(tree, (Ident, Literal)) and getattr(tree, 'raw', '') != 'raw'",
    ),
]
SPANS = [
    ("4 bytes hold 8 parts", "(part % 16 << 2)", "(part % 8 << 2)"),
    ("4 bytes hold 512 lengths", "(length % 256 << 6)", "(length % 512 << 6)"),
    ("8 bytes end at 2046 of parts", "part_rest <= 2047", "part_rest <= 2046"),
    ("8 bytes end at 2048 of parts", "part_rest <= 2047", "part_rest <= 2048"),
    *((f"8 bytes end at {most} of lengths", "length_rest <= 1023", f"length_rest <= {most}") for most in (1022, 1024)),
    *((f"8 bytes end at {most} of starts", "start_rest <= 1023", f"start_rest <= {most}") for most in (1022, 1024)),
    ("12 bytes shift the start by 47", "(start_rest << 48)", "(start_rest << 47)"),
    ("12 bytes shift the length by 23", "(length_rest << 24)", "(length_rest << 23)"),
    ("12 bytes look like 8", "2 * (rests >> 32) + 1", "2 * (rests >> 32)"),
    ("the top's spans are as short as others", "span.end - span.start, 0, True)", "span.end - span.start, 0, False)"),
]
REFERENCES = [
    ("63 takes two bytes", "if index < 64:", "if index < 63:"),
    ("64 takes one byte", "if index < 64:", "if index < 65:"),
    ("4,096 takes four bytes", "if index < 8192:", "if index < 4096:"),
    ("8,191 takes four bytes", "if index < 8192:", "if index < 8191:"),
    ("the second byte is not doubled", "number(2 * (index // 64), 1)", "number(index // 64, 1)"),
    ("two bytes have no tag", "first = 4 * (index % 64) + 2 + tag", "first = 4 * (index % 64) + 2"),
    ("four bytes have six bits in the second", "index // 64 % 128", "index // 64 % 64"),
    ("four bytes divide by 8,191", "number(index // 8192, 2)", "number(index // 8191, 2)"),
    ("four bytes have the high ones first", "number(index // 8192, 2)", "number(index // 8192, 2)[::-1]"),
]
LEAVES = [
    ("127 is no ASCII", "if code >= 128:", "if code >= 127:"),
    ("128 is ASCII", "if code >= 128:", "if code >= 129:"),
    (
        "another punct is alone where it is hidden", "6 + 8 * SPACINGS.index(punct.spacing)",
        "6 + 8 * (SPACINGS.index(punct.spacing) & 1)",
    ),
    ("a hidden punct has the bits of others", "self.span(punct.span, 3)", "self.span(punct.span, 1)"),
    ("a raw ident has the tag of others", 'int(tree.raw == "raw")', "0"),
    ("a suffix of 15 is long", "literal.suffix_len <= 15", "literal.suffix_len <= 14"),
    ("any suffix is short", "literal.suffix_len <= 15 and", ""),
    *(
        (f"{kind} has no short form", f'"{kind}": {form}', f'"no {kind}": {form}')
        for kind, form in (("str", 3), ("rstr:0", 4), ("rstr:1", 11), ("int", 12))
    ),
    ("two hashes are short", '"rstr:1": 11', '"rstr:2": 11'),
    ("no hashes take no byte", 'if hashes else b"")', 'if hashes.strip("0") else b"")'),
    ("cstr and rcstr change numbers", '"cstr", "rcstr", "err")', '"rcstr", "cstr", "err")'),
    ("int and float change numbers", '"char", "int", "float"', '"char", "float", "int"'),
]
HEADERS = [
    ("an opaque header may be short", SHORT_HEADER, SHORT_HEADER.replace("kind <= 3", "kind <= 4")),
    ("an invisible header is never short", SHORT_HEADER, SHORT_HEADER.replace("kind <= 3", "kind <= 2")),
    ("short headers count 254 tokens", SHORT_HEADER, SHORT_HEADER.replace("255", "254")),
    ("short headers have spans of any lengths", SHORT_HEADER, SHORT_HEADER.replace("length == other", "length <= other")),
    ("format 1 ends at a distance of 2,046", FORMAT_1, FORMAT_1.replace("2047", "2046")),
    ("format 1 has spans of length 0", FORMAT_1, FORMAT_1.replace("length == 1", "length <= 1")),
    ("format 1 counts 254 bytes", FORMAT_1, FORMAT_1.replace("255", "254")),
    ("format 2 ends at a distance of 6", FORMAT_2, FORMAT_2.replace("7", "6")),
    ("format 2 counts 254 bytes", FORMAT_2, FORMAT_2.replace("255", "254")),
    ("format 3 counts 4,094 bytes", FORMAT_3, FORMAT_3.replace("4095", "4094")),
    ("format 3 ends at a distance of 254", FORMAT_3, FORMAT_3.replace("<= 255", "<= 254")),
    ("format 3 ends at part 126", FORMAT_3, FORMAT_3.replace("127", "126")),
    ("format 3 has two low bits of a part", "32 * (close_part % 8)", "32 * (close_part % 4)"),
    ("format 3 halves a part's high bits", "16 * byte_count + close_part // 8", "16 * byte_count + close_part // 16"),
    (
        "format 4 of what closes before it opens has one span", "+ self.span(closing, 0)",
        "+ self.span(closing if distance >= 0 else opening, 0)",
    ),
    (
        "the top is invisible where it is opaque", "DELIMITER_KINDS.index(top.kind), 1)",
        "min(3, DELIMITER_KINDS.index(top.kind)), 1)",
    ),
    (
        "an opaque top has its parts the other way", "self.part_count + place",
        "self.part_count + (place ^ (top.kind == 'opaque'))",
    ),
]
MUTANTS = TABLES + SPANS + REFERENCES + LEAVES + HEADERS
HELPERS = ""
