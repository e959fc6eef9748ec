//! Why a call gave nothing: the table of `include/cuvolemin.h`.

macro_rules! faults {
    ($($name:ident = $number:literal, $message:literal;)*) => {
        /// Why a call gave nothing.
        #[derive(Debug, Clone, Copy, PartialEq, Eq, Hash)]
        #[non_exhaustive]
        pub enum Fault {
            $(#[doc = $message] $name = $number,)*
        }

        impl Fault {
            /// The fault of that number, if one has it.
            pub fn of_number(number: u32) -> Option<Fault> {
                match number {
                    $($number => Some(Fault::$name),)*
                    _ => None,
                }
            }

            /// What it means, in a sentence.
            pub fn message(self) -> &'static str {
                match self {
                    $(Fault::$name => $message,)*
                }
            }

            /// Whether it is a warning: something stays as it is, or may mean something else than before, and no function returns it.
            pub fn is_warning(self) -> bool {
                use Fault::*;
                matches!(self, Left | BuiltIn | SeveralDefinitions | NotExported | Captured | Conditional)
            }
        }
    };
}

faults! {
    Memory = 1, "Memory ran out.";
    NoRoom = 2, "The result is longer than the output. Nothing is written there.";
    NotUtf8 = 3, "The text is not UTF-8.";
    TextTooLong = 4, "The text has 4,294,967,296 bytes or more.";
    TooManyTokens = 5, "The trees have too many tokens.";
    TooManySpanParts = 6, "The trees have too many span parts.";
    TooManySymbols = 7, "The trees have too many symbols.";
    TooManyBytes = 8, "The trees have too many bytes.";
    OtherLimit = 9, "Another limit of trees is exceeded.";
    Unopened = 10, "A closing bracket without an open one.";
    Mismatched = 11, "A closing bracket that does not match the innermost open one.";
    Unclosed = 12, "The innermost bracket still open at the end.";
    UnterminatedComment = 20, "`/*` without a closing `*/`.";
    UnterminatedLiteral = 21, "A literal that is never closed.";
    RawWithoutQuote = 22, "The hashes of a raw literal without a quote behind them.";
    TooManyHashes = 23, "More than 255 hashes.";
    SuffixTooLong = 24, "A suffix of more than 255 bytes.";
    NeverRaw = 25, "`r#` before a name that is never raw.";
    UnknownCharacter = 26, "A character that begins no token.";
    UnknownPrefix = 27, "A name right before a quote or a `#` that is no prefix of a literal.";
    InvalidIdent = 28, "A name that contains emoji.";
    GuardedPrefix = 29, "`##` or `#\"`.";
    NoDigits = 30, "The letter of a base without a digit behind it.";
    EmptyExponent = 31, "The `e` of a float without a digit behind it.";
    FloatOfAnotherBase = 32, "A float that is not written in base ten.";
    ForeignDigit = 33, "A digit that the number's base does not have.";
    BeyondAscii = 34, "A byte or a byte string with a character beyond ASCII.";
    BareReturn = 35, "A carriage return without a line feed behind it.";
    UnknownEscape = 36, "An escape that such a literal does not have.";
    BadHexEscape = 37, "`\\x` without two digits of base 16.";
    HexEscapeTooLarge = 38, "`\\x80` or more, if that would be no character.";
    BadUnicodeEscape = 39, "`\\u` that spells no character.";
    WantsEscape = 40, "A character that a character literal allows only behind a backslash.";
    EmptyChar = 41, "A character literal without a character.";
    SeveralChars = 42, "A character literal with several characters.";
    NullInCStr = 43, "A null in a C string.";
    LifetimeBeginsWithDigit = 44, "`'` and a digit.";
    NoCfg = 50, "A condition is no `NAME` and no `NAME=\"VALUE\"`.";
    BytesTooShort = 60, "The bytes end too early.";
    BytesOfOtherFormat = 61, "The bytes have another format, or another version of this one.";
    BytesWithoutText = 62, "A symbol's text is not UTF-8.";
    BytesWithoutTree = 63, "The bytes contain no tree.";
    BytesStoredOtherwise = 64, "The bytes contain a tree that is stored as other bytes.";
    InputTooShort = 70, "The bytes of the input end too early.";
    InputOfOtherFormat = 71, "The bytes of the input have another format.";
    InputWithoutText = 72, "A symbol's text in the bytes of the input is not UTF-8.";
    InputWithoutTree = 73, "The bytes of the input contain no tree.";
    InputStoredOtherwise = 74, "The bytes of the input contain a tree that is stored as other bytes.";
    NoPattern = 81, "No pattern comes where an arm should begin.";
    BeginsNothing = 82, "A `$` of a pattern begins nothing.";
    UnknownFragment = 83, "A variable names a fragment that does not exist.";
    Left = 84, "A warning: the definition of a call's macro has a fault, so the call stays.";
    NameTwice = 85, "Two variables have the same name.";
    NeedlessSeparator = 86, "A repetition has a separator but never two rounds.";
    EmptyRepetition = 87, "The body of a repetition may match zero trees.";
    NoArrow = 88, "No `=>` follows a pattern.";
    NoTemplate = 89, "No template follows `=>`.";
    StillRepeats = 90, "A variable still repeats where it is used.";
    NothingRepeats = 91, "Nothing repeats in a repetition of a template.";
    NoSemicolon = 92, "Neither the end nor `;` follows a template.";
    BuiltIn = 93, "A warning: a call of a macro that is built into the compiler stays.";
    SeveralDefinitions = 94, "A warning: which definition of a call's macro holds depends on `#[cfg(..)]`, so the call stays.";
    NotExported = 95, "A warning: no macro of the name after `crate::` has `#[macro_export]`, so the call stays.";
    Captured = 96, "A warning: an expansion binds a name of its input, and does not keep the two apart.";
    Conditional = 97, "A warning: the attributes of a call cannot apply to its expansion, so the call stays.";
    NoMatch = 100, "No arm matches the input.";
    Ambiguous = 101, "An arm matches the input in two ways.";
    LengthsDiffer = 102, "Variables of a repetition have different numbers of rounds.";
    NoRound = 103, "A repetition that needs a round has none.";
    TooDeep = 104, "Too many expansions are nested.";
    NotWritable = 105, "A leaf of the tree cannot be written as a text that reads back.";
    MadeTooLong = 106, "The text would have 4,294,967,295 bytes or more.";
    Statements = 107, "The expansion of a call that is no statement is statements.";
    OverMaxTokens = 108, "A call and the calls in its result would write too many tokens.";
}
