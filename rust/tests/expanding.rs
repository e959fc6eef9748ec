//! Texts that are expanded with options, and their findings. What is expected was worked out by hand.

use cuvolemin::{Call, Error, ExpandOptions, Expansion, Fault, Finding, expand_with};

const NESTED: &str = "macro_rules! m { ($x:ident) => { n!($x) } }\n\
                      macro_rules! n { (a) => { 1 } }\n\
                      f(m!(a), m!(b));\n";

fn usual(text: &str) -> Expansion {
    expand_with(text, &ExpandOptions::default()).expect("the text has a tree")
}

/// The text that is made with options of one without findings.
fn made(text: &str, options: ExpandOptions) -> String {
    let Expansion { text, findings } = expand_with(text, &options).expect("the text has a tree");
    assert_eq!(findings, []);
    text
}

fn call(macro_name: &str, at: usize) -> Call {
    Call {
        macro_name: macro_name.to_string(),
        at,
    }
}

#[test]
fn a_text_is_expanded_beside_its_findings() {
    let Expansion { text, findings } = usual(NESTED);
    assert_eq!(
        text,
        "macro_rules! m { ($x:ident) => { n!($x) } }\n\
         macro_rules! n { (a) => { 1 } }\n\
         f(1, n!(b));\n"
    );
    assert_eq!(
        findings,
        [Finding {
            macro_name: "n".to_string(),
            fault: Fault::NoMatch,
            at: 88,
            defined_at: Some(57),
            detail: 0,
            trail: vec![call("m", 85)],
            expected: Some("`a` (rule 1)".to_string()),
        }]
    );
    assert!(!findings[0].is_warning());
}

#[test]
fn a_text_without_macros_stays() {
    for text in ["", "fn f() {} // é", "other!(a)"] {
        assert_eq!(made(text, ExpandOptions::default()), text);
    }
}

#[test]
fn faults_in_arms_have_their_number() {
    let findings = usual("macro_rules! bad { () => {}; ($y) => {} } bad!();").findings;
    let bad = |fault, at, defined_at, detail| Finding {
        macro_name: "bad".to_string(),
        fault,
        at,
        defined_at,
        detail,
        trail: vec![],
        expected: None,
    };
    assert_eq!(
        findings,
        [
            bad(Fault::BeginsNothing, 30, None, 1),
            bad(Fault::Left, 42, Some(13), 0)
        ]
    );
    assert!(findings[1].is_warning());
}

#[test]
fn a_captured_name_has_the_byte_that_binds_it() {
    let text = "macro_rules! c { ($e:expr) => { { let x = 1; $e } } } fn f() { g(c!(x)) }";
    let findings = usual(text).findings;
    assert_eq!(
        findings,
        [Finding {
            macro_name: "c".to_string(),
            fault: Fault::Captured,
            at: 68,
            defined_at: Some(13),
            detail: 38,
            trail: vec![],
            expected: None,
        }]
    );
    assert!(findings[0].is_warning());
}

#[test]
fn options_are_heeded() {
    let usual = ExpandOptions::default();
    let root = ExpandOptions {
        root: "std",
        ..usual
    };
    assert_eq!(
        made("macro_rules! p { () => { $crate::q } } f(p!());", root),
        "macro_rules! p { () => { $crate::q } } f(std::q);"
    );
    let only = ExpandOptions {
        only: Some("b"),
        ..usual
    };
    let two = "macro_rules! a { () => { 1 } } macro_rules! b { () => { 2 } }";
    assert_eq!(
        made(&format!("{two} f(a!(), b!());"), only),
        format!("{two} f(a!(), 2);")
    );
    let everywhere = ExpandOptions {
        everywhere: true,
        ..usual
    };
    let one = "macro_rules! a { () => { 1 } }";
    assert_eq!(
        made(&format!("{one} v![a!()];"), usual),
        format!("{one} v![a!()];")
    );
    assert_eq!(
        made(&format!("{one} v![a!()];"), everywhere),
        format!("{one} v![1];")
    );
}

#[test]
fn an_expansion_is_laid_out_like_its_template() {
    let rules = "macro_rules! text {\n    \
                     ($($name:ident),*) => {\n        \
                         fn text(level: Level) -> &'static str {\n            \
                             match level {\n                \
                                 $(Level::$name => stringify!($name),)* // all of them\n            \
                             }\n        \
                         }\n    \
                     };\n\
                 }\n";
    let source = format!("{rules}\nmod levels {{\n    text!(Low, High);\n}}\n");
    assert_eq!(
        made(&source, ExpandOptions::default()),
        format!(
            "{rules}\nmod levels {{\n    \
                 fn text(level: Level) -> &'static str {{\n        \
                     match level {{\n            \
                         Level::Low => stringify!(Low),\n            \
                         Level::High => stringify!(High), // all of them\n        \
                     }}\n    \
                 }}\n\
             }}\n"
        )
    );
    let one_line = ExpandOptions {
        one_line: true,
        ..ExpandOptions::default()
    };
    assert_eq!(
        made(&source, one_line),
        format!(
            "{rules}\nmod levels {{\n    fn text (level : Level) -> &'static str \
             {{match level {{Level :: Low => stringify ! (Low) , Level :: High => stringify ! (High) ,}}}}\n}}\n"
        )
    );
}

#[test]
fn conditions_are_known() {
    let made = |cfg| {
        let options = ExpandOptions {
            cfg,
            ..ExpandOptions::default()
        };
        expand_with(
            "#[cfg(all(b, k = \"v\"))] macro_rules! m(() => {1}); #[cfg(not(b))] macro_rules! m(() => {2}); f(m!());",
            &options,
        )
        .map(|made| (made.text.ends_with("f(1);"), made.findings.len()))
    };
    assert_eq!(made(&["b", " k = \"v\" "]), Ok((true, 0)));
    assert_eq!(made(&["k=\"v\""]), Ok((false, 1)));
    assert_eq!(made(&[]), Ok((false, 1)));
    for (at, cfg) in [
        (0, &["a b"] as &[&str]),
        (1, &["b", "k=v"]),
        (2, &["b", "c", ""]),
        (1, &["b", "k=\"\0\""]),
    ] {
        let fault = Fault::NoCfg;
        assert_eq!(made(cfg), Err(Error { fault, at }), "{cfg:?}");
    }
}

#[test]
fn limits_have_their_findings_with_the_calls_around() {
    let endless = "macro_rules! m { () => { m!() } } f(m!());";
    let limit = ExpandOptions {
        limit: 3,
        ..ExpandOptions::default()
    };
    let Expansion { text, findings } = expand_with(endless, &limit).unwrap();
    assert_eq!(text, endless, "the last call is laid out like the first");
    assert_eq!(findings.len(), 1);
    assert_eq!((findings[0].fault, findings[0].at), (Fault::TooDeep, 25));
    assert_eq!(
        findings[0].trail,
        [call("m", 36), call("m", 25), call("m", 25)]
    );
    let max_tokens = ExpandOptions {
        max_tokens: 2,
        ..ExpandOptions::default()
    };
    let long = "macro_rules! m { () => { 1 2 3 } } f(m!());";
    let Expansion { text, findings } = expand_with(long, &max_tokens).unwrap();
    assert_eq!(text, long);
    assert_eq!(
        (findings[0].fault, findings[0].at),
        (Fault::OverMaxTokens, 37)
    );
}

#[test]
fn more_findings_than_there_was_room_for_are_all_there() {
    let text = format!(
        "macro_rules! m {{ (a) => {{}} }}\n{}",
        "m!(b);\n".repeat(1000)
    );
    let Expansion {
        text: made,
        findings,
    } = usual(&text);
    assert_eq!(made, text);
    assert_eq!(findings.len(), 1000);
    assert!((0..1000).all(|i| findings[i].at == 29 + 7 * i + 3));
}

#[test]
fn a_text_without_a_tree_is_an_error() {
    assert_eq!(
        expand_with("a ) b", &ExpandOptions::default()),
        Err(Error {
            fault: Fault::Unopened,
            at: 2
        })
    );
}
