//! Rust texts, token trees in bytes, and macros: safe functions over those of `include/cuvolemin.h`.

mod error;
mod expanding;
mod fault;
mod sys;
mod token;
mod tree;

pub use error::Error;
pub use expanding::{Call, ExpandOptions, Expansion, Finding, expand_with};
pub use fault::Fault;
pub use token::{Delimiter, LiteralKind, Spacing, Span, Token};
pub use tree::{Tree, parse};

/// The Rust text with the calls of its own macros expanded. All else stays byte for byte, but for lines in which nothing is left. What a call
/// becomes is laid out like the template and the input that it comes from, with the indentation of the call.
///
/// An error has the byte of the text at which it shows. `expand_with` has options, and reports all findings.
pub fn expand(text: &str) -> Result<String, Error> {
    let made = made(64 + 2 * text.len(), |out, written, at| {
        // Safety: each pointer is that of a slice or of a number which lives as long as the call, and none overlap.
        unsafe {
            sys::tt_expand_text(
                text.as_ptr(),
                text.len(),
                out.as_mut_ptr(),
                out.len(),
                written,
                at,
            )
        }
    })?;
    Ok(text_of(made))
}

/// What a call makes: first with so much room, then with what it needs if that is more.
fn made(
    room: usize,
    mut call: impl FnMut(&mut [u8], &mut usize, &mut usize) -> u32,
) -> Result<Vec<u8>, Error> {
    let mut out = vec![0; room];
    loop {
        let (mut written, mut at) = (0, 0);
        match checked(call(&mut out, &mut written, &mut at), at) {
            Ok(()) => {
                out.truncate(written);
                return Ok(out);
            }
            Err(error) if error.fault == Fault::NoRoom && written > out.len() => {
                out = vec![0; written]
            }
            Err(error) => return Err(error),
        }
    }
}

/// The bytes and the words that a call makes: first with so much room, then with what it needs if that is more.
fn made_both(
    room: usize,
    words_room: usize,
    mut call: impl FnMut(&mut [u8], &mut usize, &mut [usize], &mut usize, &mut usize) -> u32,
) -> Result<(Vec<u8>, Vec<usize>), Error> {
    let (mut out, mut words) = (vec![0; room], vec![0; words_room]);
    loop {
        let (mut written, mut found, mut at) = (0, 0, 0);
        let answer = call(&mut out, &mut written, &mut words, &mut found, &mut at);
        let is_short = written > out.len() || found > words.len();
        match checked(answer, at) {
            Ok(()) => {
                out.truncate(written);
                words.truncate(found);
                return Ok((out, words));
            }
            Err(error) if error.fault == Fault::NoRoom && is_short => {
                out.resize(out.len().max(written), 0);
                words.resize(words.len().max(found), 0);
            }
            Err(error) => return Err(error),
        }
    }
}

/// The answer of a call, with the place that it gave.
fn checked(answer: u32, at: usize) -> Result<(), Error> {
    match Fault::of_number(answer) {
        None => {
            assert_eq!(
                answer, 0,
                "the library is another than the one of this crate"
            );
            Ok(())
        }
        Some(fault) => Err(Error { fault, at }),
    }
}

/// The text that a call made, which is UTF-8.
fn text_of(bytes: Vec<u8>) -> String {
    String::from_utf8(bytes).expect("the library writes UTF-8")
}
