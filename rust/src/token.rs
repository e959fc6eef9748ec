//! The tokens of a tree.

use crate::{Error, Tree, made_both, sys, text_of};

/// A token of a tree.
#[derive(Debug, Clone, PartialEq, Eq, Hash)]
pub enum Token {
    /// The start of a subtree, with the span of its opening bracket.
    Open { delimiter: Delimiter, span: Span },
    /// The end of a subtree, with the span of its closing bracket.
    Close { delimiter: Delimiter, span: Span },
    /// A name or a keyword. The text has the `r#` of a raw one.
    Ident {
        text: String,
        is_raw: bool,
        span: Span,
    },
    /// A character of punctuation.
    Punct {
        char: char,
        spacing: Spacing,
        span: Span,
    },
    /// A literal, with its quotes and its suffix.
    Literal {
        text: String,
        kind: LiteralKind,
        span: Span,
    },
}

/// The brackets around a subtree.
#[derive(Debug, Clone, Copy, PartialEq, Eq, Hash)]
pub enum Delimiter {
    Parenthesis,
    Brace,
    Bracket,
    /// No brackets.
    Invisible,
    /// No brackets, but kept as one tree.
    InvisibleOpaque,
}

/// What follows a punct.
#[derive(Debug, Clone, Copy, PartialEq, Eq, Hash)]
pub enum Spacing {
    /// It is not joined to the next token.
    Alone,
    /// A punct follows directly.
    Joint,
    /// Another token follows directly. Macros do not see this.
    JointHidden,
}

/// The kind of a literal.
#[derive(Debug, Clone, Copy, PartialEq, Eq, Hash)]
pub enum LiteralKind {
    Byte,
    Char,
    Integer,
    Float,
    Str,
    StrRaw,
    ByteStr,
    ByteStrRaw,
    CStr,
    CStrRaw,
    /// A text that is no literal.
    Err,
}

/// Where a token begins and ends.
#[derive(Debug, Clone, Copy, PartialEq, Eq, Hash)]
pub struct Span {
    /// The byte at which it begins, counted from the item of the file.
    pub start: u32,
    /// The byte behind it.
    pub end: u32,
    /// The file: 0 for the text of `parse`.
    pub file: u32,
    /// The item: 0 for the text of `parse`.
    pub item: u32,
    /// The syntax context: 0 for the text of `parse`.
    pub context: u32,
}

/// How many words a token has.
const WORDS: usize = 9;

impl Tree {
    /// Its tokens, in reading order. Each subtree is a token that opens it, what it holds, and one that closes it. The top is left out.
    pub fn tokens(&self) -> Result<Vec<Token>, Error> {
        let bytes = self.as_bytes();
        let words_room = WORDS * (bytes.len() / 4);
        let (texts, words) =
            made_both(bytes.len(), words_room, |out, written, words, found, at| {
                // Safety: each pointer is that of a slice or of a number which lives as long as the call, and none overlap.
                unsafe {
                    sys::tt_bytes_to_tokens(
                        bytes.as_ptr(),
                        bytes.len(),
                        out.as_mut_ptr(),
                        out.len(),
                        written,
                        words.as_mut_ptr(),
                        words.len(),
                        found,
                        at,
                    )
                }
            })?;
        let words = words.chunks_exact(WORDS);
        Ok(words.map(|words| Token::of(&texts, words)).collect())
    }
}

impl Token {
    /// The token of these words, whose text is among these bytes (`include/cuvolemin.h`).
    fn of(bytes: &[u8], words: &[usize]) -> Token {
        let [sort, kind, text, len] = [words[0], words[1], words[2], words[3]];
        let text = text_of(bytes[text..text + len].to_vec());
        let [start, end, file, item, context] =
            [4, 5, 6, 7, 8].map(|at| u32::try_from(words[at]).expect(ANOTHER));
        let span = Span {
            start,
            end,
            file,
            item,
            context,
        };
        match sort {
            1 => Token::Open {
                delimiter: DELIMITERS[kind],
                span,
            },
            2 => Token::Close {
                delimiter: DELIMITERS[kind],
                span,
            },
            3 => Token::Ident {
                text,
                is_raw: kind == 1,
                span,
            },
            4 => Token::Punct {
                char: text.chars().next().expect(ANOTHER),
                spacing: SPACINGS[kind],
                span,
            },
            5 => Token::Literal {
                text,
                kind: LITERALS[kind],
                span,
            },
            _ => panic!("{ANOTHER}"),
        }
    }

    /// Its text: that of its bracket, if it opens or closes a subtree.
    pub fn text(&self) -> String {
        match self {
            Token::Open { delimiter, .. } => delimiter.opening().to_string(),
            Token::Close { delimiter, .. } => delimiter.closing().to_string(),
            Token::Punct { char, .. } => char.to_string(),
            Token::Ident { text, .. } | Token::Literal { text, .. } => text.clone(),
        }
    }

    /// Where it begins and ends.
    pub fn span(&self) -> Span {
        match self {
            Token::Open { span, .. }
            | Token::Close { span, .. }
            | Token::Ident { span, .. }
            | Token::Punct { span, .. }
            | Token::Literal { span, .. } => *span,
        }
    }
}

impl Delimiter {
    /// The text of the opening bracket.
    pub fn opening(self) -> &'static str {
        match self {
            Delimiter::Parenthesis => "(",
            Delimiter::Brace => "{",
            Delimiter::Bracket => "[",
            Delimiter::Invisible | Delimiter::InvisibleOpaque => "",
        }
    }

    /// The text of the closing bracket.
    pub fn closing(self) -> &'static str {
        match self {
            Delimiter::Parenthesis => ")",
            Delimiter::Brace => "}",
            Delimiter::Bracket => "]",
            Delimiter::Invisible | Delimiter::InvisibleOpaque => "",
        }
    }
}

const ANOTHER: &str = "the library is another than the one of this crate";

/// The kinds, in the order of their numbers.
const DELIMITERS: [Delimiter; 5] = [
    Delimiter::Parenthesis,
    Delimiter::Brace,
    Delimiter::Bracket,
    Delimiter::Invisible,
    Delimiter::InvisibleOpaque,
];
const SPACINGS: [Spacing; 3] = [Spacing::Alone, Spacing::Joint, Spacing::JointHidden];
const LITERALS: [LiteralKind; 11] = [
    LiteralKind::Byte,
    LiteralKind::Char,
    LiteralKind::Integer,
    LiteralKind::Float,
    LiteralKind::Str,
    LiteralKind::StrRaw,
    LiteralKind::ByteStr,
    LiteralKind::ByteStrRaw,
    LiteralKind::CStr,
    LiteralKind::CStrRaw,
    LiteralKind::Err,
];
