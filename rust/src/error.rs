//! Why a call gave nothing, and where.

use crate::Fault;
use std::fmt;

/// Why a call gave nothing, and where.
#[derive(Debug, Clone, Copy, PartialEq, Eq, Hash)]
pub struct Error {
    /// What is wrong.
    pub fault: Fault,
    /// The place. The function that gives the error says what is counted.
    pub at: usize,
}

impl fmt::Display for Error {
    fn fmt(&self, f: &mut fmt::Formatter<'_>) -> fmt::Result {
        write!(f, "{} At {}.", self.fault.message(), self.at)
    }
}

impl std::error::Error for Error {}
