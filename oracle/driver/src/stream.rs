//! The streams between programs. All numbers are little-endian.
//!
//! Cases: u32 length, book. Answers: u8 code, u32 length, u16 definitions,
//! u16 lifted, u16 place, book. Premises: u8 code, u8 yes, u16 place, u32
//! length, expanded book.

use crate::answer::{Answer, Premise};
use crate::limits::code;
use std::io::{self, Read, Write};

/// A case longer than this is taken for a wrong stream.
const LONGEST: u32 = 1 << 24;

pub fn write_case(out: &mut impl Write, book: &[u8]) -> io::Result<()> {
    out.write_all(&(book.len() as u32).to_le_bytes())?;
    out.write_all(book)
}

/// The next case, or none where the stream ends between two.
pub fn read_case(input: &mut impl Read) -> Result<Option<Vec<u8>>, String> {
    let length = up_to(input, 4)?;
    let length = match length.as_slice() {
        [] => return Ok(None),
        &[a, b, c, d] => u32::from_le_bytes([a, b, c, d]),
        _ => return Err("the stream ends inside a length".to_string()),
    };
    if length > LONGEST {
        return Err(format!("a length of {length}: this is no case stream"));
    }
    let book = up_to(input, u64::from(length))?;
    if book.len() < length as usize {
        return Err(format!(
            "the stream ends inside a book: {} of {length} bytes",
            book.len()
        ));
    }
    Ok(Some(book))
}

fn up_to(input: &mut impl Read, count: u64) -> Result<Vec<u8>, String> {
    let mut bytes = Vec::new();
    input
        .take(count)
        .read_to_end(&mut bytes)
        .map_err(|error| error.to_string())?;
    Ok(bytes)
}

pub fn write_answer(out: &mut impl Write, answer: &Answer) -> io::Result<()> {
    let (book, definitions, lifted, at) = match answer {
        Answer::Done(done) => (done.book.as_slice(), done.definitions, done.lifted, 0),
        Answer::Refused(refusal) => (&[][..], 0, 0, refusal.at),
    };
    out.write_all(&[answer.code()])?;
    out.write_all(&(book.len() as u32).to_le_bytes())?;
    out.write_all(&(definitions as u16).to_le_bytes())?;
    out.write_all(&(lifted as u16).to_le_bytes())?;
    out.write_all(&(at as u16).to_le_bytes())?;
    out.write_all(book)
}

pub fn write_premise(out: &mut impl Write, premise: &Premise) -> io::Result<()> {
    let (code, yes, at, book) = match premise {
        Premise::Holds { yes, expanded } => (code::DONE, *yes, 0, expanded.as_slice()),
        Premise::Refused(refusal) => (refusal.code, false, refusal.at, &[][..]),
    };
    out.write_all(&[code, u8::from(yes)])?;
    out.write_all(&(at as u16).to_le_bytes())?;
    out.write_all(&(book.len() as u32).to_le_bytes())?;
    out.write_all(book)
}
