//! Token trees, held as their bytes.

use crate::{Error, checked, made, sys, text_of};

/// A token tree, held as its bytes: two trees are equal exactly if their bytes are, and are hashed and ordered by them.
#[derive(Debug, Clone, PartialEq, Eq, Hash, PartialOrd, Ord)]
pub struct Tree {
    bytes: Vec<u8>,
}

/// The tree of a Rust text. An error has the byte of the text at which it shows.
pub fn parse(text: &str) -> Result<Tree, Error> {
    let bytes = made(64 + 4 * text.len(), |out, written, at| {
        // Safety: each pointer is that of a slice or of a number which lives as long as the call, and none overlap.
        unsafe {
            sys::tt_text_to_bytes(
                text.as_ptr(),
                text.len(),
                out.as_mut_ptr(),
                out.len(),
                written,
                at,
            )
        }
    })?;
    Ok(Tree { bytes })
}

impl Tree {
    /// The tree that has these bytes. An error has the first byte that shows that no tree has them.
    pub fn from_bytes(bytes: Vec<u8>) -> Result<Tree, Error> {
        let mut at = 0;
        // Safety: as above.
        let answer = unsafe { sys::tt_check_bytes(bytes.as_ptr(), bytes.len(), &mut at) };
        checked(answer, at)?;
        Ok(Tree { bytes })
    }

    /// Its bytes.
    pub fn as_bytes(&self) -> &[u8] {
        &self.bytes
    }

    /// Gives up the tree for its bytes.
    pub fn into_bytes(self) -> Vec<u8> {
        self.bytes
    }

    /// Its Rust text, on one line, with the spaces of rustfmt; it reads back. An error has the number of tokens before the leaf that cannot be written.
    pub fn to_text(&self) -> Result<String, Error> {
        let bytes = self.as_bytes();
        let text = made(2 * bytes.len(), |out, written, at| {
            // Safety: as above.
            unsafe {
                sys::tt_bytes_to_text(
                    bytes.as_ptr(),
                    bytes.len(),
                    out.as_mut_ptr(),
                    out.len(),
                    written,
                    at,
                )
            }
        })?;
        Ok(text_of(text))
    }

    /// What the macro whose arms are this tree's trees makes of an input. `(pattern) => {template}` is an arm, and `;` separates two.
    ///
    /// An error has the number of the arm, from 0, if one is wrong, matches the input in two ways, or cannot be filled; or the number of
    /// tokens of the input before the place that no arm passes.
    pub fn expand(&self, input: &Tree) -> Result<Tree, Error> {
        let (arms, input) = (self.as_bytes(), input.as_bytes());
        let bytes = made(2 * (arms.len() + input.len()), |out, written, at| {
            // Safety: as above.
            unsafe {
                sys::tt_expand_bytes(
                    arms.as_ptr(),
                    arms.len(),
                    input.as_ptr(),
                    input.len(),
                    out.as_mut_ptr(),
                    out.len(),
                    written,
                    at,
                )
            }
        })?;
        Ok(Tree { bytes })
    }
}
