//! The books of a comparison, in parts.

use crate::callee::Call;
use crate::case::{drawn, Sizes, OUTS, WORKS};
use driver::cases::{self, short, sweep, Rng};
use driver::places::places;
use driver::stories;

/// A book of more bytes is not swept: each byte makes 258 damages.
const SWEPT_BYTES: usize = 64;

pub struct Part {
    pub name: &'static str,
    pub cases: Box<dyn Iterator<Item = (Vec<u8>, Sizes)>>,
    pub count: u64,
}

/// All parts: those that are always the same, then so many generated books of a seed. Where the nested mode is called,
/// the first parts have its books too, and as many are generated for it.
pub fn parts(calls: &[Call], seed: u64, count: u64) -> Vec<Part> {
    let nested = calls.contains(&Call::Nested);
    let generated = (0..count).map(move |number| cases::case(seed, number).bytes);
    let swept: Vec<Vec<u8>> = told(nested)
        .into_iter()
        .filter(|book| book.len() <= SWEPT_BYTES)
        .collect();
    let damages = swept
        .into_iter()
        .flat_map(|book| sweep::sweep(&book).collect::<Vec<_>>());
    let mut parts = vec![
        part("limits", Box::new(around_the_limits(nested))),
        part("tables", Box::new(with_all_sizes(cases::around_tables()))),
        part("places", Box::new(with_all_sizes(misplaced()))),
        with_sizes("strings", seed, short::strings()),
        with_sizes("small books", seed, short::books()),
        with_sizes("damages", seed, damages),
        Part {
            count,
            cases: sized(seed, generated),
            name: "generated",
        },
    ];
    if nested {
        let macros = (0..count).map(move |number| cases::nested_case(seed, number).bytes);
        parts.push(Part {
            count,
            cases: sized(seed, macros),
            name: "macros in macros",
        });
    }
    parts
}

fn part(name: &'static str, cases: Box<dyn Iterator<Item = (Vec<u8>, Sizes)>>) -> Part {
    let cases: Vec<_> = cases.collect();
    Part {
        name,
        count: cases.len() as u64,
        cases: Box::new(cases.into_iter()),
    }
}

fn with_sizes(
    name: &'static str,
    seed: u64,
    books: impl Iterator<Item = Vec<u8>> + 'static,
) -> Part {
    part(name, sized(seed, books))
}

fn sized(
    seed: u64,
    books: impl Iterator<Item = Vec<u8>> + 'static,
) -> Box<dyn Iterator<Item = (Vec<u8>, Sizes)>> {
    let sizes = (0..).map(move |number| drawn(&mut Rng::of_case(!seed, number)));
    Box::new(books.zip(sizes))
}

/// Every limit from both sides and the books with a story.
fn around_the_limits(nested: bool) -> impl Iterator<Item = (Vec<u8>, Sizes)> {
    with_all_sizes(limits(nested).into_iter().chain(told(nested)).collect())
}

/// A fault of each kind of item, wherever it can stand.
fn misplaced() -> Vec<Vec<u8>> {
    places().into_iter().map(|one| one.bytes).collect()
}

/// With buffers of all lengths around the limits.
fn with_all_sizes(books: Vec<Vec<u8>>) -> impl Iterator<Item = (Vec<u8>, Sizes)> {
    books.into_iter().enumerate().flat_map(|(number, book)| {
        let noise = number as u32;
        let works = WORKS.into_iter();
        works.flat_map(move |work| {
            let book = book.clone();
            let outs = OUTS.into_iter();
            outs.map(move |out| (book.clone(), Sizes { out, work, noise }))
        })
    })
}

/// Every limit from both sides, with those of the nested mode or without.
pub fn limits(nested: bool) -> Vec<Vec<u8>> {
    let mut sides = cases::both_sides();
    if nested {
        sides.extend(cases::nested_sides());
    }
    sides.into_iter().map(|side| side.bytes).collect()
}

/// The books with a story, likewise.
pub fn told(nested: bool) -> Vec<Vec<u8>> {
    let mut told = stories::stories();
    if nested {
        told.extend(stories::nested_stories());
    }
    told.into_iter().map(|story| story.bytes).collect()
}
