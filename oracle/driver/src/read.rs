//! Bytes to a book: codes 2 to 5, and the place of a fault. The Rust has no
//! book, so all of this is a reading of documents 01 and 02 a, but for what a
//! string is: `std::str::from_utf8`.

use crate::limits::{code, BOOK_BYTES, DEFINITIONS, LEVELS};
use crate::stop::Refusal;
use crate::tree::{tag, Book, Cases, Combinator, Definition, Field, Inner, Leaf, Length, Text};

type Read<T> = Result<T, Refusal>;

/// Reads a whole book, or answers 2, 3, 4 or 5.
pub fn read(bytes: &[u8]) -> Read<Book> {
    if bytes.len() > BOOK_BYTES {
        return Err(Refusal::of(code::BOOK_TOO_LONG));
    }
    let mut definitions = Vec::new();
    for entry in contents(bytes)? {
        definitions.push(body(bytes, &entry)?);
    }
    Ok(Book { definitions })
}

struct Entry {
    kind: u8,
    start: usize,
    end: usize,
}

fn fault<T>(code: u8, at: usize) -> Read<T> {
    Err(Refusal { code, at })
}

/// The contents, tested whole before any body is looked at.
fn contents(bytes: &[u8]) -> Read<Vec<Entry>> {
    let mut cursor = Cursor::over(bytes, 0, bytes.len());
    let count = cursor.u16()? as usize;
    if count > DEFINITIONS {
        return fault(code::NOT_A_BOOK, 0);
    }
    let mut entries = Vec::new();
    let mut next = 2 + 6 * count;
    for _ in 0..count {
        let entry = cursor.entry(next)?;
        next = entry.end;
        entries.push(entry);
    }
    if next != bytes.len() {
        return fault(code::NOT_A_BOOK, next);
    }
    Ok(entries)
}

fn body(bytes: &[u8], entry: &Entry) -> Read<Definition> {
    let mut cursor = Cursor::over(bytes, entry.start, entry.end);
    let definition = match entry.kind {
        1 => format(&mut cursor)?,
        2 => Definition::Constant {
            name: cursor.plain_name()?,
            text: cursor.text()?,
        },
        3 => Definition::ByteOrder {
            text: cursor.text()?,
        },
        _ => macro_definition(&mut cursor)?,
    };
    if cursor.at < cursor.end {
        return fault(code::NOT_A_BOOK, cursor.at);
    }
    Ok(definition)
}

fn format(cursor: &mut Cursor) -> Read<Definition> {
    let name = cursor.plain_name()?;
    let params = cursor.counted(|c| Ok((c.plain_name()?, inner(c, 1)?)))?;
    let body = combinator(cursor, 1)?;
    Ok(Definition::Format { name, params, body })
}

fn macro_definition(cursor: &mut Cursor) -> Read<Definition> {
    let name = cursor.plain_name()?;
    let params = cursor.counted(Cursor::plain_name)?;
    let body = combinator(cursor, 1)?;
    Ok(Definition::Macro { name, params, body })
}

fn combinator(cursor: &mut Cursor, level: usize) -> Read<Combinator> {
    let inner = inner(cursor, level)?;
    let chain = match cursor.one_of(0, 1)? {
        0 => None,
        _ => Some(Box::new(combinator(cursor, level + 1)?)),
    };
    Ok(Combinator { inner, chain })
}

fn child(cursor: &mut Cursor, level: usize) -> Read<Box<Combinator>> {
    Ok(Box::new(combinator(cursor, level + 1)?))
}

/// An unknown tag is 3 before its level is tested.
fn inner(cursor: &mut Cursor, level: usize) -> Read<Inner> {
    let at = cursor.at;
    let tag = cursor.one_of(1, 16)?;
    if level > LEVELS {
        return fault(code::TOO_DEEP, at);
    }
    if let Some(leaf) = Leaf::of_tag(tag) {
        return Ok(Inner::Leaf(leaf, cursor.text()?));
    }
    Ok(match tag {
        tag::STRUCT => Inner::Struct(cursor.counted(|c| field(c, level))?),
        tag::WRAP => Inner::Wrap(cursor.text()?, child(cursor, level)?, cursor.text()?),
        tag::CHOICE => choice(cursor, level)?,
        tag::VEC => Inner::Vec(child(cursor, level)?),
        tag::ARRAY => Inner::Array(cursor.length()?, child(cursor, level)?),
        tag::BYTES => Inner::Bytes(cursor.length()?),
        tag::OPTION => Inner::Option(child(cursor, level)?),
        tag::INVOCATION => {
            Inner::Invocation(cursor.plain_name()?, cursor.counted(Cursor::dotted_name)?)
        }
        _ => Inner::MacroInvocation(
            cursor.plain_name()?,
            cursor.counted(|c| inner(c, level + 1))?,
        ),
    })
}

fn field(cursor: &mut Cursor, level: usize) -> Read<Field> {
    let kind = cursor.one_of(1, 3)?;
    let label = cursor.plain_name()?;
    Ok(match kind {
        1 => Field::Ordinary(label, combinator(cursor, level + 1)?),
        2 => Field::Dependent(label, combinator(cursor, level + 1)?),
        _ => Field::Const(label, cursor.text()?),
    })
}

fn choice(cursor: &mut Cursor, level: usize) -> Read<Inner> {
    let selector = match cursor.one_of(0, 1)? {
        0 => None,
        _ => Some(cursor.dotted_name()?),
    };
    let cases = match cursor.one_of(1, 3)? {
        1 => Cases::Enums(cursor.counted(|c| Ok((c.plain_name()?, combinator(c, level + 1)?)))?),
        2 => Cases::Ints(cursor.counted(|c| Ok((c.text()?, combinator(c, level + 1)?)))?),
        _ => Cases::Arrays(cursor.counted(|c| Ok((c.text()?, combinator(c, level + 1)?)))?),
    };
    Ok(Inner::Choice(selector, cases))
}

/// A place in the book and the end that nothing may run past.
struct Cursor<'b> {
    bytes: &'b [u8],
    at: usize,
    end: usize,
}

impl<'b> Cursor<'b> {
    fn over(bytes: &'b [u8], at: usize, end: usize) -> Self {
        Cursor { bytes, at, end }
    }

    /// `count` bytes of the item that begins at `item`.
    fn take(&mut self, count: usize, item: usize) -> Read<&'b [u8]> {
        if self.end - self.at < count {
            return fault(code::NOT_A_BOOK, item);
        }
        let taken = &self.bytes[self.at..self.at + count];
        self.at += count;
        Ok(taken)
    }

    fn u16(&mut self) -> Read<u16> {
        let bytes = self.take(2, self.at)?;
        Ok(u16::from_le_bytes([bytes[0], bytes[1]]))
    }

    /// One byte from `low` to `high`: a kind, a tag or a flag.
    fn one_of(&mut self, low: u8, high: u8) -> Read<u8> {
        let at = self.at;
        let byte = self.take(1, at)?[0];
        if byte < low || byte > high {
            return fault(code::NOT_A_BOOK, at);
        }
        Ok(byte)
    }

    fn entry(&mut self, start: usize) -> Read<Entry> {
        let at = self.at;
        let entry = self.take(6, at)?;
        let (kind, zero) = (entry[0], entry[1]);
        let offset = u16::from_le_bytes([entry[2], entry[3]]) as usize;
        let end = start + u16::from_le_bytes([entry[4], entry[5]]) as usize;
        let known = (1..=4).contains(&kind) && zero == 0;
        if !known || offset != start || end > self.end {
            return fault(code::NOT_A_BOOK, at);
        }
        Ok(Entry { kind, start, end })
    }

    fn text(&mut self) -> Read<Text> {
        let at = self.at;
        let length = self.u16()? as usize;
        Ok(self.take(length, at)?.to_vec())
    }

    /// A name that may have a '.': a selector or a call's argument.
    fn dotted_name(&mut self) -> Read<String> {
        let at = self.at;
        let length = self.take(1, at)?[0] as usize;
        match std::str::from_utf8(self.take(length, at)?) {
            Ok(name) => Ok(name.to_string()),
            Err(_) => fault(code::BAD_NAME, at),
        }
    }

    fn plain_name(&mut self) -> Read<String> {
        let at = self.at;
        let name = self.dotted_name()?;
        if name.contains('.') {
            return fault(code::BAD_NAME, at);
        }
        Ok(name)
    }

    fn length(&mut self) -> Read<Length> {
        Ok(Length {
            roots: self.counted(Cursor::plain_name)?,
            text: self.text()?,
        })
    }

    /// A u16 count and that many items. The count itself is never at fault:
    /// the items are read one by one.
    fn counted<T>(&mut self, mut item: impl FnMut(&mut Self) -> Read<T>) -> Read<Vec<T>> {
        let count = self.u16()?;
        let mut items = Vec::new();
        for _ in 0..count {
            items.push(item(self)?);
        }
        Ok(items)
    }
}
