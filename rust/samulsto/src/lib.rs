//! The step `elaborate` of the Vest format compiler, proved: it expands the macros of a book of record layouts and
//! lifts nested formats into definitions of their own.
//!
//! ```
//! let book = [0, 0]; // no definitions
//! let result = samulsto::elaborate(&book)?;
//! for definition in result.definitions() {
//!     println!("{:?} {}", definition.kind, definition.name.unwrap_or("-"));
//! }
//! # Ok::<(), samulsto::Error>(())
//! ```
//!
//! Every string of bytes may be handed in. What comes back for it is proved (see the repository's README); this crate
//! only lends the buffers and gives the codes their names. Where a book can't be read, the error has
//! the byte at fault:
//!
//! ```
//! use samulsto::Refusal;
//!
//! let cut = [1, 0]; // one definition, and no entry for it
//! let error = samulsto::elaborate(&cut).unwrap_err();
//! assert_eq!((error.refusal, error.at), (Refusal::NotABook, Some(2)));
//! ```

mod definitions;
mod refusal;
mod sys;

pub use definitions::{Definition, Definitions, Kind};
pub use refusal::{Error, Refusal};
use sys::Mode;

/// A book is at most so long.
pub const BOOK_BYTES: usize = 16_384;
/// A work area is at least so long.
pub const WORK_BYTES: usize = 65_536;
/// No result is longer.
pub const OUT_BYTES: usize = 16_384;

/// A book in which macros are expanded and nested formats are lifted.
#[derive(Debug, Clone, Copy, PartialEq, Eq)]
pub struct Elaborated<B = Vec<u8>> {
    bytes: B,
    definitions: usize,
    lifted: usize,
}

impl<B: AsRef<[u8]>> Elaborated<B> {
    /// The result as a book.
    pub fn book(&self) -> &[u8] {
        self.bytes.as_ref()
    }

    /// Its definitions in order, as parts of the book; nothing is copied.
    pub fn definitions(&self) -> Definitions<'_> {
        Definitions::new(self.book(), self.definitions, self.lifted)
    }

    /// How many of them were lifted: the last ones.
    pub fn lifted(&self) -> usize {
        self.lifted
    }
}

impl Elaborated {
    /// The result as a book, taken out.
    pub fn into_book(self) -> Vec<u8> {
        self.bytes
    }
}

/// Expands macros and lifts nested formats. It lends buffers of its own, so it never answers
/// [`Refusal::WorkTooShort`] or [`Refusal::OutTooShort`]; nor [`Refusal::MacroCallLeft`], which is the nested mode's.
pub fn elaborate(book: &[u8]) -> Result<Elaborated, Error> {
    with_own_buffers(Mode::Plain, book)
}

/// The same in nested mode, for macros that call macros: they are expanded again and again, at most 16 times, until
/// none of the book's macros is called in a format's body, the arguments of a macro call left aside. Where one pass is
/// enough, it answers what [`elaborate`] does.
pub fn elaborate_nested(book: &[u8]) -> Result<Elaborated, Error> {
    with_own_buffers(Mode::Nested, book)
}

/// [`elaborate`] in buffers of the caller: the result stands in the first bytes of `out`, and what is behind it is as
/// before, as is all of `out` after a refusal. `work` is all zero afterwards, however long it is.
pub fn elaborate_into<'out>(
    book: &[u8],
    out: &'out mut [u8],
    work: &mut [u8],
) -> Result<Elaborated<&'out [u8]>, Error> {
    with_buffers(Mode::Plain, book, out, work)
}

/// [`elaborate_nested`] in buffers of the caller, which hold afterwards what [`elaborate_into`] says.
pub fn elaborate_nested_into<'out>(
    book: &[u8],
    out: &'out mut [u8],
    work: &mut [u8],
) -> Result<Elaborated<&'out [u8]>, Error> {
    with_buffers(Mode::Nested, book, out, work)
}

fn with_own_buffers(mode: Mode, book: &[u8]) -> Result<Elaborated, Error> {
    let mut bytes = vec![0; OUT_BYTES];
    let Elaborated {
        bytes: result,
        definitions,
        lifted,
    } = with_buffers(mode, book, &mut bytes, &mut vec![0; WORK_BYTES])?;
    let length = result.len();
    bytes.truncate(length);
    Ok(Elaborated {
        bytes,
        definitions,
        lifted,
    })
}

fn with_buffers<'out>(
    mode: Mode,
    book: &[u8],
    out: &'out mut [u8],
    work: &mut [u8],
) -> Result<Elaborated<&'out [u8]>, Error> {
    let answer = sys::elaborate(mode, book, out, work);
    match Error::of(answer.code, answer.at) {
        Some(error) => Err(error),
        None => Ok(Elaborated {
            bytes: &out[..answer.length as usize],
            definitions: answer.definitions as usize,
            lifted: answer.lifted as usize,
        }),
    }
}

/// Whether, once macros are expanded as [`elaborate`] does, every format called is defined in the book and chains stand on Bytes and Tail
/// alone. Then putting lifted definitions back gives the expanded book again, and none has a parameter too many.
pub fn premise(book: &[u8]) -> Result<bool, Error> {
    premise_with(book, &mut vec![0; WORK_BYTES])
}

/// The same with a work area of the caller, which is all zero afterwards, however long it is.
pub fn premise_with(book: &[u8], work: &mut [u8]) -> Result<bool, Error> {
    let answer = sys::premise(book, work);
    match Error::of(answer.code, answer.at) {
        Some(error) => Err(error),
        None => Ok(answer.holds != 0),
    }
}
