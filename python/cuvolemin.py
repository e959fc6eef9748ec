"""Rust texts, token trees in bytes, and macros: the functions of include/cuvolemin.h by ctypes.

The library is lib/out/libcuvolemin.so beside this folder, or the file that the variable CUVOLEMIN_LIBRARY names."""

import collections
import ctypes
import functools
import os
import pathlib

# The table of include/cuvolemin.h.
FAULTS = {
    1: ('Memory', 'Memory ran out.'),
    2: ('NoRoom', 'The result is longer than the output. Nothing is written there.'),
    3: ('NotUtf8', 'The text is not UTF-8.'),
    4: ('TextTooLong', 'The text has 4,294,967,296 bytes or more.'),
    5: ('TooManyTokens', 'The trees have too many tokens.'),
    6: ('TooManySpanParts', 'The trees have too many span parts.'),
    7: ('TooManySymbols', 'The trees have too many symbols.'),
    8: ('TooManyBytes', 'The trees have too many bytes.'),
    9: ('OtherLimit', 'Another limit of trees is exceeded.'),
    10: ('Unopened', 'A closing bracket without an open one.'),
    11: ('Mismatched', 'A closing bracket that does not match the innermost open one.'),
    12: ('Unclosed', 'The innermost bracket still open at the end.'),
    20: ('UnterminatedComment', '`/*` without a closing `*/`.'),
    21: ('UnterminatedLiteral', 'A literal that is never closed.'),
    22: ('RawWithoutQuote', 'The hashes of a raw literal without a quote behind them.'),
    23: ('TooManyHashes', 'More than 255 hashes.'),
    24: ('SuffixTooLong', 'A suffix of more than 255 bytes.'),
    25: ('NeverRaw', '`r#` before a name that is never raw.'),
    26: ('UnknownCharacter', 'A character that begins no token.'),
    27: ('UnknownPrefix', 'A name right before a quote or a `#` that is no prefix of a literal.'),
    28: ('InvalidIdent', 'A name that contains emoji.'),
    29: ('GuardedPrefix', '`##` or `#"`.'),
    30: ('NoDigits', 'The letter of a base without a digit behind it.'),
    31: ('EmptyExponent', 'The `e` of a float without a digit behind it.'),
    32: ('FloatOfAnotherBase', 'A float that is not written in base ten.'),
    33: ('ForeignDigit', "A digit that the number's base does not have."),
    34: ('BeyondAscii', 'A byte or a byte string with a character beyond ASCII.'),
    35: ('BareReturn', 'A carriage return without a line feed behind it.'),
    36: ('UnknownEscape', 'An escape that such a literal does not have.'),
    37: ('BadHexEscape', '`\\x` without two digits of base 16.'),
    38: ('HexEscapeTooLarge', '`\\x80` or more, if that would be no character.'),
    39: ('BadUnicodeEscape', '`\\u` that spells no character.'),
    40: ('WantsEscape', 'A character that a character literal allows only behind a backslash.'),
    41: ('EmptyChar', 'A character literal without a character.'),
    42: ('SeveralChars', 'A character literal with several characters.'),
    43: ('NullInCStr', 'A null in a C string.'),
    44: ('LifetimeBeginsWithDigit', "`'` and a digit."),
    50: ('NoCfg', 'A condition is no `NAME` and no `NAME="VALUE"`.'),
    60: ('BytesTooShort', 'The bytes end too early.'),
    61: ('BytesOfOtherFormat', 'The bytes have another format, or another version of this one.'),
    62: ('BytesWithoutText', "A symbol's text is not UTF-8."),
    63: ('BytesWithoutTree', 'The bytes contain no tree.'),
    64: ('BytesStoredOtherwise', 'The bytes contain a tree that is stored as other bytes.'),
    70: ('InputTooShort', 'The bytes of the input end too early.'),
    71: ('InputOfOtherFormat', 'The bytes of the input have another format.'),
    72: ('InputWithoutText', "A symbol's text in the bytes of the input is not UTF-8."),
    73: ('InputWithoutTree', 'The bytes of the input contain no tree.'),
    74: ('InputStoredOtherwise', 'The bytes of the input contain a tree that is stored as other bytes.'),
    81: ('NoPattern', 'No pattern comes where an arm should begin.'),
    82: ('BeginsNothing', 'A `$` of a pattern begins nothing.'),
    83: ('UnknownFragment', 'A variable names a fragment that does not exist.'),
    84: ('Left', "A warning: the definition of a call's macro has a fault, so the call stays."),
    85: ('NameTwice', 'Two variables have the same name.'),
    86: ('NeedlessSeparator', 'A repetition has a separator but never two rounds.'),
    87: ('EmptyRepetition', 'The body of a repetition may match zero trees.'),
    88: ('NoArrow', 'No `=>` follows a pattern.'),
    89: ('NoTemplate', 'No template follows `=>`.'),
    90: ('StillRepeats', 'A variable still repeats where it is used.'),
    91: ('NothingRepeats', 'Nothing repeats in a repetition of a template.'),
    92: ('NoSemicolon', 'Neither the end nor `;` follows a template.'),
    93: ('BuiltIn', 'A warning: a call of a macro that is built into the compiler stays.'),
    94: ('SeveralDefinitions', "A warning: which definition of a call's macro holds depends on `#[cfg(..)]`, so the call stays."),
    95: ('NotExported', 'A warning: no macro of the name after `crate::` has `#[macro_export]`, so the call stays.'),
    96: ('Captured', 'A warning: an expansion binds a name of its input, and does not keep the two apart.'),
    97: ('Conditional', 'A warning: the attributes of a call cannot apply to its expansion, so the call stays.'),
    100: ('NoMatch', 'No arm matches the input.'),
    101: ('Ambiguous', 'An arm matches the input in two ways.'),
    102: ('LengthsDiffer', 'Variables of a repetition have different numbers of rounds.'),
    103: ('NoRound', 'A repetition that needs a round has none.'),
    104: ('TooDeep', 'Too many expansions are nested.'),
    105: ('NotWritable', 'A leaf of the tree cannot be written as a text that reads back.'),
    106: ('MadeTooLong', 'The text would have 4,294,967,295 bytes or more.'),
    107: ('Statements', 'The expansion of a call that is no statement is statements.'),
    108: ('OverMaxTokens', 'A call and the calls in its result would write too many tokens.'),
}

NO_ROOM = 2
NO_CFG = 50
# Those that are found, but are no faults.
WARNINGS = frozenset((84, 93, 94, 95, 96, 97))
# The word for a missing number.
MISSING = ctypes.c_size_t(-1).value

# What tokens are, and the kinds of each, in the order of their numbers.
SORTS = (None, "open", "close", "ident", "punct", "literal")
BRACKETS = ("parenthesis", "brace", "bracket", "invisible", "opaque")
KINDS = {
    "open": BRACKETS,
    "close": BRACKETS,
    "ident": ("plain", "raw"),
    "punct": ("alone", "joint", "hidden"),
    "literal": ("byte", "char", "integer", "float", "str", "raw str", "byte str", "raw byte str", "C str", "raw C str", "none"),
}
TOKEN_WORDS = 9


class Error(ValueError):
    """Why a call gave nothing: the number of the fault, its name, and the place; the header says what the place counts."""

    def __init__(self, number, at):
        self.number = number
        self.at = at
        self.name, self.message = FAULTS.get(number, ("Unknown", "A fault that this module does not know."))
        super().__init__(f"{self.message} At {at}.")


def _library():
    beside = pathlib.Path(__file__).resolve().parent.parent / "lib" / "out" / "libcuvolemin.so"
    library = ctypes.CDLL(os.environ.get("CUVOLEMIN_LIBRARY") or str(beside))
    slice_in = [ctypes.c_char_p, ctypes.c_size_t]
    number_out = ctypes.POINTER(ctypes.c_size_t)
    makes = [ctypes.c_void_p, ctypes.c_size_t, number_out, number_out]
    for name, arguments in {
        "tt_text_to_bytes": slice_in + makes,
        "tt_bytes_to_text": slice_in + makes,
        "tt_bytes_to_tokens": slice_in + makes[:3] + makes,
        "tt_expand_text": slice_in + makes,
        "tt_expand_text_with": slice_in * 4 + [ctypes.c_uint32] * 2 + [ctypes.c_size_t] * 2 + makes[:3] + makes,
        "tt_expand_bytes": slice_in + slice_in + makes,
        "tt_check_bytes": slice_in + [number_out],
    }.items():
        function = getattr(library, name)
        function.argtypes = arguments
        function.restype = ctypes.c_uint32
    return library


_LIBRARY = _library()


def _made(function, room, *inputs):
    """What a function makes of inputs: first with so much room, then with what it needs if that is more."""
    slices = [word for data in inputs for word in (data, len(data))]
    while True:
        out = ctypes.create_string_buffer(max(room, 1))
        written, at = ctypes.c_size_t(), ctypes.c_size_t()
        number = function(*slices, out, room, ctypes.byref(written), ctypes.byref(at))
        if number == 0:
            return out.raw[: written.value]
        if number != NO_ROOM or written.value <= room:
            raise Error(number, at.value)
        room = written.value


def _made_both(function, room, words_room, *arguments):
    """The bytes and the words that a function makes of arguments: first with so much room, then with what it needs if that is more."""
    while True:
        out, words = ctypes.create_string_buffer(max(room, 1)), (ctypes.c_size_t * max(words_room, 1))()
        written, found, at = ctypes.c_size_t(), ctypes.c_size_t(), ctypes.c_size_t()
        number = function(*arguments, out, room, ctypes.byref(written), words, words_room, ctypes.byref(found), ctypes.byref(at))
        if number == 0:
            return out.raw[: written.value], words[: found.value]
        if number != NO_ROOM or (written.value <= room and found.value <= words_room):
            raise Error(number, at.value)
        room, words_room = max(room, written.value), max(words_room, found.value)


# Where a token begins and ends: bytes from the start of an item of a file, and the syntax context.
Span = collections.namedtuple("Span", "start end file item context")

# A token: what it is (SORTS), its kind (KINDS), its text, and its Span.
Token = collections.namedtuple("Token", "sort kind text span")


@functools.total_ordering
class Tree:
    """A token tree, held as its bytes: two trees are equal exactly if their bytes are, and are ordered by them."""

    __slots__ = ("_bytes",)

    def __init__(self, data):
        """The tree that has these bytes. Error if no tree has them."""
        data = bytes(data)
        at = ctypes.c_size_t()
        number = _LIBRARY.tt_check_bytes(data, len(data), ctypes.byref(at))
        if number != 0:
            raise Error(number, at.value)
        self._bytes = data

    @classmethod
    def _of(cls, data):
        tree = cls.__new__(cls)
        tree._bytes = data
        return tree

    def __bytes__(self):
        return self._bytes

    def __eq__(self, other):
        return self._bytes == other._bytes if isinstance(other, Tree) else NotImplemented

    def __lt__(self, other):
        return self._bytes < other._bytes if isinstance(other, Tree) else NotImplemented

    def __hash__(self):
        return hash(self._bytes)

    def to_text(self):
        """Its Rust text, on one line, with the spaces of rustfmt. Error if a leaf cannot be written so that it reads back."""
        return _made(_LIBRARY.tt_bytes_to_text, 2 * len(self._bytes), self._bytes).decode()

    def tokens(self):
        """Its tokens, in reading order. Each subtree is a token that opens it, what it holds, and one that closes it. The top is left out."""
        size = len(self._bytes)
        data, words = _made_both(_LIBRARY.tt_bytes_to_tokens, size, TOKEN_WORDS * (size // 4), self._bytes, size)
        tokens = []
        for place in range(0, len(words), TOKEN_WORDS):
            sort, kind, text, length, *span = words[place : place + TOKEN_WORDS]
            sort = SORTS[sort]
            tokens.append(Token(sort, KINDS[sort][kind], data[text : text + length].decode(), Span(*span)))
        return tokens

    def expand(self, source):
        """What the macro whose arms are this tree's trees makes of an input."""
        room = 2 * (len(self._bytes) + len(source._bytes))
        return Tree._of(_made(_LIBRARY.tt_expand_bytes, room, self._bytes, source._bytes))


def _bytes_of(text):
    """The bytes of a str or of bytes; a TypeError for anything else."""
    if isinstance(text, str):
        return text.encode()
    if isinstance(text, (bytes, bytearray, memoryview)):
        return bytes(text)
    raise TypeError(f"a text is a str or bytes, not {type(text).__name__}")


def parse(text):
    """The tree of a Rust text, a str or bytes."""
    data = _bytes_of(text)
    return Tree._of(_made(_LIBRARY.tt_text_to_bytes, 64 + 4 * len(data), data))


def expand(text):
    """The Rust text with the calls of its own macros expanded."""
    data = _bytes_of(text)
    return _made(_LIBRARY.tt_expand_text, 64 + 2 * len(data), data).decode()


# A call that wrote what has a finding: the name of its macro, and the byte of the text at which it begins.
Call = collections.namedtuple("Call", "macro_name at")

# An expanded text, and what is found in its macros and calls, in order.
Expansion = collections.namedtuple("Expansion", "text findings")


class Finding(collections.namedtuple("Finding", "number macro_name at defined_at detail trail expected")):
    """A fault of a macro or of a call, or the reason why a call stays, with the number of the fault and the byte of the text at which it shows.

    defined_at is the byte at which the macro's name begins in its definition, if this is about a call, else None. detail is the byte at which
    the macro binds a captured name; else the number of the arm, from 0, if the fault is in one; else 0. trail has the calls that wrote the
    definition or the call, the outermost first. expected says what the macro's rules expect if none of them matches, such as
    "`,` (rule 1) or the end (rule 1)", else None."""

    __slots__ = ()

    @property
    def name(self):
        """The name of the fault."""
        return FAULTS[self.number][0]

    @property
    def message(self):
        """What it means, in a sentence."""
        return FAULTS[self.number][1]

    @property
    def is_warning(self):
        """Whether it is a warning."""
        return self.number in WARNINGS


def _expansion(data, words):
    """The expansion that the library wrote as these bytes and words (include/cuvolemin.h)."""
    length, count = words[:2]
    callers = 2 + 7 * count

    def number(word):
        return None if word == MISSING else word

    def text_at(at):
        return None if at == MISSING else data[at : data.index(0, at)].decode()

    def trail(index):
        calls = []
        while index != MISSING:
            at, outer, name = words[callers + 3 * index :][:3]
            calls.append(Call(text_at(name), at))
            index = outer
        return calls[::-1]

    findings = []
    for place in range(2, callers, 7):
        fault, at, defined_at, caller, detail, name, expected = words[place : place + 7]
        findings.append(Finding(fault, text_at(name), at, number(defined_at), detail, trail(caller), text_at(expected)))
    return Expansion(data[:length].decode(), findings)


def _ended(cfg):
    """Conditions, each with a 0 behind it. One that contains a 0 would be two there, and is wrong."""
    if isinstance(cfg, (str, bytes)):
        raise TypeError("cfg is a list of conditions")
    ended = []
    for at, condition in enumerate(cfg):
        data = _bytes_of(condition)
        if 0 in data:
            raise Error(NO_CFG, at)
        ended.append(data + b"\0")
    return b"".join(ended)


def expand_with(text, *, root="crate", only=None, cfg=(), everywhere=False, one_line=False, limit=128, max_tokens=4_000_000):
    """The Rust text with the calls of its macros expanded, and all that is found. A definition or a call with a fault stays.

    root is the word that $crate becomes. only is the name, without r#, of the only macros that are read and expanded. cfg lists what is true in
    #[cfg(..)], each NAME or NAME="VALUE" as rustc's --cfg takes it, without escapes; all else is open. With everywhere, calls in the brackets of
    calls that stay are expanded too. What a call becomes is laid out like the template and the input that it comes from; with one_line it is one
    line, with spaces between most tokens. At most limit expansions may be nested, and a call and the calls in its result may write at most
    max_tokens tokens."""
    data, root, only, cfg = _bytes_of(text), _bytes_of(root), _bytes_of(only or ""), _ended(cfg)
    for size in (limit, max_tokens):
        if not 0 <= size <= MISSING:
            raise ValueError(f"{size} is no limit")
    arguments = [word for part in (data, root, only, cfg) for word in (part, len(part))]
    arguments += [bool(everywhere), bool(one_line), limit, max_tokens]
    return _expansion(*_made_both(_LIBRARY.tt_expand_text_with, 64 + 2 * len(data), 64, *arguments))
