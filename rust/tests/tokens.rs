//! The tokens of trees. What is expected was worked out by hand.

use cuvolemin::{Delimiter, LiteralKind, Spacing, Span, Token, parse};

fn tokens(text: &str) -> Vec<Token> {
    parse(text).unwrap().tokens().unwrap()
}

/// A span of the text.
fn span(start: u32, end: u32) -> Span {
    Span {
        start,
        end,
        file: 0,
        item: 0,
        context: 0,
    }
}

fn ident(text: &str, is_raw: bool, start: u32, end: u32) -> Token {
    Token::Ident {
        text: text.to_string(),
        is_raw,
        span: span(start, end),
    }
}

fn punct(char: char, spacing: Spacing, at: u32) -> Token {
    Token::Punct {
        char,
        spacing,
        span: span(at, at + 1),
    }
}

fn literal(text: &str, kind: LiteralKind, start: u32, end: u32) -> Token {
    Token::Literal {
        text: text.to_string(),
        kind,
        span: span(start, end),
    }
}

fn open(delimiter: Delimiter, at: u32) -> Token {
    Token::Open {
        delimiter,
        span: span(at, at + 1),
    }
}

fn close(delimiter: Delimiter, at: u32) -> Token {
    Token::Close {
        delimiter,
        span: span(at, at + 1),
    }
}

#[test]
fn tokens_come_in_reading_order() {
    assert_eq!(
        tokens("r#in += f({ \"é\" [] }) ;"),
        [
            ident("r#in", true, 0, 4),
            punct('+', Spacing::Joint, 5),
            punct('=', Spacing::Alone, 6),
            ident("f", false, 8, 9),
            open(Delimiter::Parenthesis, 9),
            open(Delimiter::Brace, 10),
            literal("\"é\"", LiteralKind::Str, 12, 16),
            open(Delimiter::Bracket, 17),
            close(Delimiter::Bracket, 18),
            close(Delimiter::Brace, 20),
            close(Delimiter::Parenthesis, 21),
            punct(';', Spacing::Alone, 23),
        ]
    );
}

#[test]
fn literals_have_kinds() {
    let texts = [
        ("b'a'", LiteralKind::Byte),
        ("'a'", LiteralKind::Char),
        ("1u8", LiteralKind::Integer),
        ("1.5", LiteralKind::Float),
        ("\"a\"", LiteralKind::Str),
        ("r#\"a\"#", LiteralKind::StrRaw),
        ("b\"a\"", LiteralKind::ByteStr),
        ("br\"a\"", LiteralKind::ByteStrRaw),
        ("c\"a\"", LiteralKind::CStr),
        ("cr\"a\"", LiteralKind::CStrRaw),
    ];
    for (text, kind) in texts {
        assert_eq!(tokens(text), [literal(text, kind, 0, text.len() as u32)]);
    }
}

#[test]
fn tokens_have_texts_and_spans() {
    let all = tokens("[a]");
    let texts: Vec<_> = all.iter().map(Token::text).collect();
    assert_eq!(texts, ["[", "a", "]"]);
    let spans: Vec<_> = all.iter().map(Token::span).collect();
    assert_eq!(spans, [span(0, 1), span(1, 2), span(2, 3)]);
    assert_eq!(tokens(""), []);
}

#[test]
fn an_expansion_keeps_the_spans_of_its_parts() {
    let arms = parse("($a:ident $b:expr) => { $b $a }").unwrap();
    let made = arms.expand(&parse("x 1 + 2").unwrap()).unwrap();
    let mut tokens = made.tokens().unwrap();
    tokens.retain(|token| !matches!(token, Token::Open { .. } | Token::Close { .. }));
    assert_eq!(
        tokens,
        [
            literal("1", LiteralKind::Integer, 2, 3),
            punct('+', Spacing::Alone, 4),
            literal("2", LiteralKind::Integer, 6, 7),
            ident("x", false, 0, 1),
        ]
    );
}

#[test]
fn many_tokens_find_room() {
    let all = tokens(&";".repeat(10_000));
    assert_eq!(all.len(), 10_000);
    assert!((0..10_000).all(|at| all[at].span() == span(at as u32, at as u32 + 1)));
}
