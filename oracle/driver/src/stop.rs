//! Why an answer ends early.

use crate::limits::code;
use std::fmt;

/// One of the codes, and for 3, 4 and 5 the place of the item at fault
/// (document 02 a): the offset in the book of its first byte, or of where it
/// would begin; for leftover bytes, of the first of them. With every other code
/// the place is 0.
#[derive(Debug, Clone, Copy, PartialEq, Eq)]
pub struct Refusal {
    pub code: u8,
    pub at: usize,
}

impl Refusal {
    /// Of a code that has no place.
    pub fn of(code: u8) -> Self {
        Refusal { code, at: 0 }
    }
}

/// As the listing prints it.
impl fmt::Display for Refusal {
    fn fmt(&self, f: &mut fmt::Formatter) -> fmt::Result {
        let Refusal { code, at } = self;
        match *code {
            code::NOT_A_BOOK | code::BAD_NAME | code::TOO_DEEP => {
                write!(f, "refused {code} at {at}")
            }
            _ => write!(f, "refused {code}"),
        }
    }
}

#[derive(Debug, Clone, PartialEq, Eq)]
pub enum Stop {
    Refused(Refusal),
    /// The two readings disagree, or the Rust did what no reading allows for.
    Internal(String),
}

impl Stop {
    /// A refusal with a code that has no place.
    pub fn refused(code: u8) -> Self {
        Stop::Refused(Refusal::of(code))
    }
}

impl From<Refusal> for Stop {
    fn from(refusal: Refusal) -> Self {
        Stop::Refused(refusal)
    }
}

impl From<String> for Stop {
    fn from(message: String) -> Self {
        Stop::Internal(message)
    }
}
