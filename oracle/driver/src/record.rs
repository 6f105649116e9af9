//! The recorded list: cases with their answers, for a replay without the Rust.
//! The format is described in the README.md that is written beside the files.

use crate::answer::{answer, premise, Answer, Internal, Premise};
use crate::cases::{self, Kind};
use crate::expand::Mode;
use crate::stories::stories;
use std::collections::{BTreeMap, HashMap, HashSet};

/// A file ends before it would be longer than this.
const FILE_BYTES: usize = 390_000;
/// Records up to this length are taken as they come ..
const SHORT: usize = 312;
/// .. those up to this length until each kind has so many under each code ..
const MIDDLE: usize = 2602;
const MIDDLE_EACH: usize = 6;
/// .. and of longer ones, so many.
const LONG_EACH: usize = 1;

pub struct List {
    pub files: Vec<Vec<u8>>,
    pub cases: usize,
    pub codes: BTreeMap<u8, usize>,
}

/// The list of a seed: the given books, the worked ones, the limits from both
/// sides, then generated ones until there are `count` cases.
pub fn record(seed: u64, count: usize, books: Vec<Vec<u8>>) -> Result<List, Internal> {
    let mut recorder = Recorder::default();
    let stories = stories().into_iter().map(|one| one.bytes);
    let sides = cases::both_sides().into_iter().map(|side| side.bytes);
    for book in books.into_iter().chain(stories).chain(sides) {
        recorder.offer(&book, None)?;
    }
    for number in 0.. {
        if recorder.cases >= count {
            break;
        }
        let case = cases::case(seed, number);
        recorder.offer(&case.bytes, Some(case.kind))?;
    }
    Ok(recorder.finish())
}

#[derive(Default)]
struct Recorder {
    files: Vec<Vec<u8>>,
    counts: Vec<u16>,
    cases: usize,
    codes: BTreeMap<u8, usize>,
    seen: HashSet<Vec<u8>>,
    large: HashMap<(Kind, u8, bool), usize>,
}

impl Recorder {
    /// Takes a case unless it was seen or there are enough like it.
    fn offer(&mut self, book: &[u8], kind: Option<Kind>) -> Result<(), Internal> {
        if !self.seen.insert(book.to_vec()) {
            return Ok(());
        }
        let answer = answer(book, Mode::Plain)?;
        let record = encoded(book, &answer, &premise(book, Mode::Plain)?);
        let wanted = kind.is_none_or(|kind| self.wanted(kind, answer.code(), record.len()));
        if wanted {
            self.take(&record);
            *self.codes.entry(answer.code()).or_default() += 1;
        }
        Ok(())
    }

    fn wanted(&mut self, kind: Kind, code: u8, bytes: usize) -> bool {
        if bytes <= SHORT {
            return true;
        }
        let middle = bytes <= MIDDLE;
        let taken = self.large.entry((kind, code, middle)).or_default();
        *taken += 1;
        *taken <= if middle { MIDDLE_EACH } else { LONG_EACH }
    }

    fn take(&mut self, record: &[u8]) {
        let full = self
            .files
            .last()
            .is_none_or(|file| file.len() + record.len() > FILE_BYTES);
        if full {
            self.files.push(vec![0; 2]);
            self.counts.push(0);
        }
        if let (Some(file), Some(count)) = (self.files.last_mut(), self.counts.last_mut()) {
            file.extend(record);
            *count += 1;
        }
        self.cases += 1;
    }

    fn finish(mut self) -> List {
        for (file, count) in self.files.iter_mut().zip(&self.counts) {
            file[..2].copy_from_slice(&count.to_le_bytes());
        }
        List {
            files: self.files,
            cases: self.cases,
            codes: self.codes,
        }
    }
}

/// Where a recorded book stands.
const FOLLOWS: u8 = 0;
const IS_THE_BOOK: u8 = 1;
const IS_THE_RESULT: u8 = 2;

fn encoded(book: &[u8], answer: &Answer, premise: &Premise) -> Vec<u8> {
    let mut record = Vec::new();
    record.extend((book.len() as u16).to_le_bytes());
    record.extend(book);
    let (result, definitions, lifted, at) = match answer {
        Answer::Done(done) => (done.book.as_slice(), done.definitions, done.lifted, 0),
        Answer::Refused(refusal) => (&[][..], 0, 0, refusal.at),
    };
    let done = answer.code() == 0;
    let within = if done && result == book {
        IS_THE_BOOK
    } else {
        FOLLOWS
    };
    record.push(answer.code());
    record.extend((definitions as u16).to_le_bytes());
    record.extend((lifted as u16).to_le_bytes());
    // The premise test's place too: it refuses with 3 to 5 what `elaborate` does.
    record.extend((at as u16).to_le_bytes());
    put(&mut record, result, within);
    let (code, yes, expanded) = match premise {
        Premise::Holds { yes, expanded } => (0, *yes, expanded.as_slice()),
        Premise::Refused(refusal) => (refusal.code, false, &[][..]),
    };
    let within = match code {
        0 if expanded == book => IS_THE_BOOK,
        0 if done && expanded == result => IS_THE_RESULT,
        _ => FOLLOWS,
    };
    record.extend([code, u8::from(yes)]);
    put(&mut record, expanded, within);
    record
}

/// u8 where they are, u32 length, and the bytes if they follow.
fn put(record: &mut Vec<u8>, bytes: &[u8], within: u8) {
    record.push(within);
    record.extend((bytes.len() as u32).to_le_bytes());
    if within == FOLLOWS {
        record.extend(bytes);
    }
}
