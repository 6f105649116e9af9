//! The definitions of a result, read where they stand.

/// What a definition is. Of a result none is a macro.
#[derive(Debug, Clone, Copy, PartialEq, Eq, Hash)]
pub enum Kind {
    Format,
    Constant,
    ByteOrder,
}

/// A definition as parts of its book.
#[derive(Debug, Clone, Copy, PartialEq, Eq)]
pub struct Definition<'book> {
    pub kind: Kind,
    /// A byte order has none.
    pub name: Option<&'book str>,
    /// All bytes of the body, its name included.
    pub body: &'book [u8],
    /// Whether it was nested in another definition before.
    pub lifted: bool,
}

/// An iterator over the definitions of a result, in order.
#[derive(Debug, Clone)]
pub struct Definitions<'book> {
    book: &'book [u8],
    next: usize,
    count: usize,
    lifted: usize,
}

impl<'book> Definitions<'book> {
    pub(crate) fn new(book: &'book [u8], count: usize, lifted: usize) -> Self {
        Definitions {
            book,
            next: 0,
            count,
            lifted,
        }
    }

    /// The definition of an entry of the contents: kind, zero, offset, length.
    fn at(&self, place: usize) -> Option<Definition<'book>> {
        let entry = self.book.get(2 + 6 * place..8 + 6 * place)?;
        let number = |at: usize| usize::from(u16::from_le_bytes([entry[at], entry[at + 1]]));
        let (start, length) = (number(2), number(4));
        let body = self.book.get(start..start + length)?;
        let kind = match entry[0] {
            1 => Kind::Format,
            2 => Kind::Constant,
            3 => Kind::ByteOrder,
            _ => return None,
        };
        let name = match kind {
            Kind::ByteOrder => None,
            Kind::Format | Kind::Constant => Some(name(body)?),
        };
        Some(Definition {
            kind,
            name,
            body,
            lifted: place + self.lifted >= self.count,
        })
    }
}

fn name(body: &[u8]) -> Option<&str> {
    let (&length, rest) = body.split_first()?;
    std::str::from_utf8(rest.get(..usize::from(length))?).ok()
}

impl<'book> Iterator for Definitions<'book> {
    type Item = Definition<'book>;

    fn next(&mut self) -> Option<Definition<'book>> {
        if self.next == self.count {
            return None;
        }
        let definition = self.at(self.next);
        debug_assert!(definition.is_some(), "a result is a book");
        self.next += 1;
        definition
    }

    fn size_hint(&self) -> (usize, Option<usize>) {
        (self.count - self.next, Some(self.count - self.next))
    }
}

impl ExactSizeIterator for Definitions<'_> {}
