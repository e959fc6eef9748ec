//! Trees, their texts, and errors with their places. What is expected was worked out by hand.

use cuvolemin::{Error, Fault, Tree, expand, parse};
use std::collections::{BTreeSet, HashSet};

fn fault_of(text: &str) -> Error {
    parse(text).expect_err("no tree")
}

#[test]
fn a_text_is_read_and_written() {
    let tree = parse("fn  first( a :u8 )->u8{a}// last").unwrap();
    assert_eq!(tree.to_text().unwrap(), "fn first(a: u8) -> u8 { a }");
}

#[test]
fn what_is_written_is_read_as_it_was() {
    let written = parse("x+=1 ; 'a : loop { break 'a }")
        .unwrap()
        .to_text()
        .unwrap();
    assert_eq!(written, "x += 1; 'a: loop { break 'a }");
    assert_eq!(parse(&written).unwrap().to_text().unwrap(), written);
}

#[test]
fn the_empty_text_has_a_tree() {
    let tree = parse("").unwrap();
    assert_eq!(tree.to_text().unwrap(), "");
    assert!(Tree::from_bytes(tree.into_bytes()).is_ok());
}

#[test]
fn equal_trees_are_equal_bytes() {
    let one = parse("a b").unwrap();
    let same = Tree::from_bytes(one.as_bytes().to_vec()).unwrap();
    let other = parse("a  b").unwrap();
    assert_eq!(one, same);
    assert_ne!(one, other, "the second name is at another byte");
    assert_eq!(
        [&one, &same, &other]
            .into_iter()
            .collect::<HashSet<_>>()
            .len(),
        2
    );
    let sorted: BTreeSet<_> = [&one, &other].into_iter().collect();
    assert_eq!(
        sorted.into_iter().next().unwrap().as_bytes(),
        one.as_bytes().min(other.as_bytes())
    );
}

#[test]
fn faults_of_texts_have_places() {
    assert_eq!(
        fault_of("a ) b"),
        Error {
            fault: Fault::Unopened,
            at: 2
        }
    );
    assert_eq!(
        fault_of("( ]"),
        Error {
            fault: Fault::Mismatched,
            at: 2
        }
    );
    assert_eq!(
        fault_of("é ("),
        Error {
            fault: Fault::Unclosed,
            at: 3
        }
    );
    assert_eq!(
        fault_of("0x"),
        Error {
            fault: Fault::NoDigits,
            at: 0
        }
    );
    assert_eq!(
        fault_of("a \"b"),
        Error {
            fault: Fault::UnterminatedLiteral,
            at: 2
        }
    );
    assert_eq!(
        fault_of("( ]").to_string(),
        "A closing bracket that does not match the innermost open one. At 2."
    );
}

#[test]
fn faults_of_bytes_have_places() {
    let bytes = parse("a").unwrap().into_bytes();
    let short = bytes[..3].to_vec();
    assert_eq!(
        Tree::from_bytes(short),
        Err(Error {
            fault: Fault::BytesTooShort,
            at: 3
        })
    );
    let mut other = bytes.clone();
    other[2] = 9;
    assert_eq!(
        Tree::from_bytes(other),
        Err(Error {
            fault: Fault::BytesOfOtherFormat,
            at: 2
        })
    );
    let mut more = bytes;
    more.push(0);
    assert!(Tree::from_bytes(more).is_err());
}

#[test]
fn a_macro_expands_an_input() {
    let arms = parse("($a:ident + $b:ident) => { $b - $a }; ($($x:tt),*) => { [$($x)*] }").unwrap();
    let made = |input| {
        arms.expand(&parse(input).unwrap())
            .map(|tree| tree.to_text().unwrap())
    };
    assert_eq!(made("p + q").unwrap(), "q - p");
    assert_eq!(made("1, (2), c").unwrap(), "[1(2) c]");
    assert_eq!(
        made("1 2"),
        Err(Error {
            fault: Fault::NoMatch,
            at: 1
        })
    );
}

#[test]
fn faults_of_macros_tell_the_arm() {
    let made = |arms, input| parse(arms).unwrap().expand(&parse(input).unwrap());
    assert_eq!(
        made("(a) => {}; ($x) => {}", "a"),
        Err(Error {
            fault: Fault::BeginsNothing,
            at: 1
        })
    );
    assert_eq!(
        made("(a) => {}; (b)", "a"),
        Err(Error {
            fault: Fault::NoArrow,
            at: 1
        })
    );
    assert_eq!(
        made("(a) => {}; ($(b)? $(b)?) => {}", "b"),
        Err(Error {
            fault: Fault::Ambiguous,
            at: 1
        })
    );
}

const PAIRS: &str = "macro_rules! pairs { ($($x:ident),*) => { [$(($x, $x)),*] } }\n";

#[test]
fn calls_in_a_text_are_expanded() {
    let text = format!("{PAIRS}let  all = pairs!(a, b); // stays\n");
    assert_eq!(
        expand(&text).unwrap(),
        format!("{PAIRS}let  all = [(a, a), (b, b)]; // stays\n")
    );
    assert_eq!(expand("other!(a)").unwrap(), "other!(a)");
}

#[test]
fn faults_of_expansions_have_places() {
    let text = format!("{PAIRS}pairs!(a, 1);");
    assert_eq!(
        expand(&text),
        Err(Error {
            fault: Fault::NoMatch,
            at: PAIRS.len() + 10
        })
    );
    assert_eq!(
        expand("macro_rules! m { ($x) => {} }"),
        Err(Error {
            fault: Fault::BeginsNothing,
            at: 18
        })
    );
    let endless = "macro_rules! m { () => { m!() } } m!()";
    assert_eq!(
        expand(endless),
        Err(Error {
            fault: Fault::TooDeep,
            at: 25
        })
    );
    let doubling = "macro_rules! m { ($($x:tt)*) => { m!($($x)* $($x)*) } } m!(a)";
    assert_eq!(
        expand(doubling),
        Err(Error {
            fault: Fault::OverMaxTokens,
            at: 34
        })
    );
}
