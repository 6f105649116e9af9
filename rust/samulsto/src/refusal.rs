//! The codes, with names and what they mean, and the error that has one.

use std::fmt;

/// Why a book was not elaborated. docs/CODES.md has more, with a smallest book for each.
#[derive(Debug, Clone, Copy, PartialEq, Eq, Hash, PartialOrd, Ord)]
#[repr(u8)]
pub enum Refusal {
    WorkTooShort = 1,
    BookTooLong = 2,
    NotABook = 3,
    BadName = 4,
    TooDeep = 5,
    MacroGrowth = 6,
    LeftoverMacro = 7,
    NoBinder = 8,
    LiftedNameTooLong = 9,
    ResultTooLarge = 10,
    OutTooShort = 11,
    /// Of the nested mode alone.
    MacroCallLeft = 12,
}

impl Refusal {
    /// All of them, by code.
    pub const ALL: [Refusal; 12] = [
        Refusal::WorkTooShort,
        Refusal::BookTooLong,
        Refusal::NotABook,
        Refusal::BadName,
        Refusal::TooDeep,
        Refusal::MacroGrowth,
        Refusal::LeftoverMacro,
        Refusal::NoBinder,
        Refusal::LiftedNameTooLong,
        Refusal::ResultTooLarge,
        Refusal::OutTooShort,
        Refusal::MacroCallLeft,
    ];

    /// Its number, 1 to 12.
    pub fn code(self) -> u8 {
        self as u8
    }

    /// A few words.
    pub fn name(self) -> &'static str {
        match self {
            Refusal::WorkTooShort => "work area too short",
            Refusal::BookTooLong => "book too long",
            Refusal::NotABook => "not a book",
            Refusal::BadName => "bad name",
            Refusal::TooDeep => "too deep",
            Refusal::MacroGrowth => "macros grow too large",
            Refusal::LeftoverMacro => "leftover macro call",
            Refusal::NoBinder => "no binder",
            Refusal::LiftedNameTooLong => "lifted name too long",
            Refusal::ResultTooLarge => "result too large",
            Refusal::OutTooShort => "output too short",
            Refusal::MacroCallLeft => "macro call left after 16 passes",
        }
    }

    /// What it means and what to do about it.
    pub fn explanation(self) -> &'static str {
        match self {
            Refusal::WorkTooShort => "The work area has fewer than 65,536 bytes: lend a longer one.",
            Refusal::BookTooLong => {
                "The book has more than 16,384 bytes: split the layouts over several books."
            }
            Refusal::NotABook => {
                "The bytes are no book: contents that do not fit the bodies, an unknown tag, an item that runs past \
                 its body or bytes left over. The program that wrote the book is at fault, or the copy is damaged."
            }
            Refusal::BadName => {
                "A name is not UTF-8, or has a '.' where only selectors and arguments may have one: rename it."
            }
            Refusal::TooDeep => {
                "Formats are nested more than 64 levels deep: give an inner one a definition of its own."
            }
            Refusal::MacroGrowth => {
                "Expanding macros passes 16,384 bytes or 64 levels: a macro whose arguments use its other parameters \
                 several times grows by the product. Use formats in place of some macros."
            }
            Refusal::LeftoverMacro => {
                "A nested format calls a macro that is not defined, or calls one from inside a macro: define it, or \
                 write the inner macro's body out, or elaborate in nested mode, which expands macros in macros."
            }
            Refusal::NoBinder => {
                "A nested format uses a name (@n) that neither a parameter nor a dependent field before it binds: \
                 bind it, or correct the name."
            }
            Refusal::LiftedNameTooLong => {
                "The name of a lifted format, made from the names on the way to it, has more than 255 bytes: shorten \
                 names and labels, or give the nested format a definition of its own."
            }
            Refusal::ResultTooLarge => {
                "The result has more than 16,384 bytes or 512 definitions: split the layouts over several books, or \
                 define once what is nested in many places."
            }
            Refusal::OutTooShort => {
                "The output is shorter than the result: 16,384 bytes are always enough."
            }
            Refusal::MacroCallLeft => {
                "After 16 passes of the nested mode a call of a defined macro is left: macros come back to themselves, \
                 or call each other more than 16 deep. Use formats in place of some macros."
            }
        }
    }
}

/// A refusal and, where one byte of the book is at fault, which.
#[derive(Debug, Clone, Copy, PartialEq, Eq, Hash)]
pub struct Error {
    pub refusal: Refusal,
    /// With [`Refusal::NotABook`], [`Refusal::BadName`] and [`Refusal::TooDeep`] the offset in the book of the first
    /// byte of the item at fault, which is the book's length where an item is missing at its end. With the others none.
    pub at: Option<usize>,
}

impl Error {
    /// None where nothing is refused. There is no other code: that is proved.
    pub(crate) fn of(code: u32, at: u32) -> Option<Error> {
        let refusal = Refusal::ALL[(code as usize).checked_sub(1)?];
        let placed = matches!(
            refusal,
            Refusal::NotABook | Refusal::BadName | Refusal::TooDeep
        );
        Some(Error {
            refusal,
            at: placed.then_some(at as usize),
        })
    }
}

impl fmt::Display for Error {
    fn fmt(&self, f: &mut fmt::Formatter) -> fmt::Result {
        let Error { refusal, at } = self;
        write!(f, "refused {}", refusal.code())?;
        if let Some(at) = at {
            write!(f, " at byte {at}")?;
        }
        write!(f, " ({}): {}", refusal.name(), refusal.explanation())
    }
}

impl std::error::Error for Error {}
