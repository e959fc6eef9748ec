//! Texts that are expanded with options, and what is found in them.

use crate::{Error, Fault, made_both, sys, text_of};

/// The options of an expansion.
#[derive(Debug, Clone, Copy, PartialEq, Eq, Hash)]
pub struct ExpandOptions<'a> {
    /// The word that `$crate` becomes.
    pub root: &'a str,
    /// The name, without `r#`, of the only macros that are read and expanded. `None` and an empty name mean all macros.
    pub only: Option<&'a str>,
    /// What is true in `#[cfg(..)]`: each is `NAME` or `NAME="VALUE"`, as rustc's `--cfg` takes it, without escapes. All else is open.
    pub cfg: &'a [&'a str],
    /// Whether calls in the brackets of calls that stay are expanded too.
    pub everywhere: bool,
    /// Whether what a call becomes is written on one line, with spaces between most tokens. Else it is laid out like the template and the
    /// input that it comes from, with the indentation of the call.
    pub one_line: bool,
    /// How many expansions may be nested. The stack that a call needs does not grow with it: 64 KiB were enough for 1,000.
    pub limit: usize,
    /// How many tokens a call and the calls in its result may write.
    pub max_tokens: usize,
}

impl Default for ExpandOptions<'_> {
    /// All macros, at most 128 nested expansions, and 4,000,000 tokens for a call; `$crate` becomes `crate`, all conditions are open, and what a
    /// call becomes is laid out.
    fn default() -> Self {
        ExpandOptions {
            root: "crate",
            only: None,
            cfg: &[],
            everywhere: false,
            one_line: false,
            limit: 128,
            max_tokens: 4_000_000,
        }
    }
}

/// An expanded text.
#[derive(Debug, Clone, PartialEq, Eq, Hash)]
pub struct Expansion {
    /// The text. A definition or a call with a fault stays in it.
    pub text: String,
    /// What is found in its macros and calls, in order.
    pub findings: Vec<Finding>,
}

/// A fault of a macro or of a call, or the reason why a call stays.
#[derive(Debug, Clone, PartialEq, Eq, Hash)]
pub struct Finding {
    /// The name of the macro.
    pub macro_name: String,
    /// What is wrong.
    pub fault: Fault,
    /// The byte of the text at which it shows.
    pub at: usize,
    /// The byte at which the macro's name begins in its definition, if this is about a call.
    pub defined_at: Option<usize>,
    /// The byte at which the macro binds the name, for `Fault::Captured`; else the number of the arm, from 0, if the fault is in one; else 0.
    pub detail: usize,
    /// The calls that wrote the definition or the call, the outermost first. None if it is in the text itself.
    pub trail: Vec<Call>,
    /// What the macro's rules expect at the byte if none of them matches: up to three parts of their patterns, such as
    /// `` `,` (rule 1) or the end (rule 1) ``.
    pub expected: Option<String>,
}

/// A call that wrote what has a finding.
#[derive(Debug, Clone, PartialEq, Eq, Hash)]
pub struct Call {
    /// The name of its macro.
    pub macro_name: String,
    /// The byte of the text at which it begins.
    pub at: usize,
}

impl Finding {
    /// Whether it is a warning.
    pub fn is_warning(&self) -> bool {
        self.fault.is_warning()
    }
}

/// The Rust text with the calls of its macros expanded, and all that is found. All else stays byte for byte, but for lines in which
/// nothing is left.
///
/// An error has the byte of the text at which it shows: the text has no tree, or memory ran out. `Fault::NoCfg` has an index of `cfg`.
pub fn expand_with(text: &str, options: &ExpandOptions<'_>) -> Result<Expansion, Error> {
    let only = options.only.unwrap_or("");
    let cfg = ended(options.cfg)?;
    let (bytes, words) = made_both(64 + 2 * text.len(), 64, |out, written, words, found, at| {
        // Safety: each pointer is that of a slice or of a number which lives as long as the call, and none overlap.
        unsafe {
            sys::tt_expand_text_with(
                text.as_ptr(),
                text.len(),
                options.root.as_ptr(),
                options.root.len(),
                only.as_ptr(),
                only.len(),
                cfg.as_ptr(),
                cfg.len(),
                options.everywhere.into(),
                options.one_line.into(),
                options.limit,
                options.max_tokens,
                out.as_mut_ptr(),
                out.len(),
                written,
                words.as_mut_ptr(),
                words.len(),
                found,
                at,
            )
        }
    })?;
    Ok(Expansion::of(&bytes, &words))
}

/// Conditions, each with a 0 behind it. One that contains a 0 would be two there, and is wrong.
fn ended(cfg: &[&str]) -> Result<String, Error> {
    match cfg.iter().position(|it| it.contains('\0')) {
        Some(at) => Err(Error {
            fault: Fault::NoCfg,
            at,
        }),
        None => Ok(cfg.iter().flat_map(|it| [it, "\0"]).collect()),
    }
}

impl Expansion {
    /// The expansion that the library wrote as these bytes and words (`include/cuvolemin.h`).
    fn of(bytes: &[u8], words: &[usize]) -> Expansion {
        let (len, count) = (words[0], words[1]);
        let (findings, callers) = words[2..].split_at(7 * count);
        let callers: Vec<_> = callers.chunks_exact(3).collect();
        Expansion {
            text: text_of(bytes[..len].to_vec()),
            findings: findings
                .chunks_exact(7)
                .map(|words| Finding {
                    macro_name: text_at(bytes, words[5]),
                    fault: u32::try_from(words[0])
                        .ok()
                        .and_then(Fault::of_number)
                        .expect("the library is the one of this crate"),
                    at: words[1],
                    defined_at: number(words[2]),
                    detail: words[4],
                    trail: trail(bytes, &callers, words[3]),
                    expected: number(words[6]).map(|at| text_at(bytes, at)),
                })
                .collect(),
        }
    }
}

/// The number that a word is, if it is not missing.
fn number(word: usize) -> Option<usize> {
    (word != usize::MAX).then_some(word)
}

/// The text that begins at a byte, and that a 0 ends.
fn text_at(bytes: &[u8], at: usize) -> String {
    let name = bytes[at..].iter().copied().take_while(|byte| *byte != 0);
    text_of(name.collect())
}

/// The caller of that index, the one that wrote it, and so on: the outermost first.
fn trail(bytes: &[u8], callers: &[&[usize]], index: usize) -> Vec<Call> {
    let caller = |index| number(index).map(|index| callers[index]);
    let mut calls: Vec<_> = std::iter::successors(caller(index), |words| caller(words[1]))
        .map(|words| Call {
            macro_name: text_at(bytes, words[2]),
            at: words[0],
        })
        .collect();
    calls.reverse();
    calls
}
