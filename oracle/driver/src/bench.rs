//! How long the Rust takes for a book.

use crate::bridge::{from_ast, to_ast};
use crate::read::read;
use crate::write::write;
use std::hint::black_box;
use std::time::{Duration, Instant};

/// Nanoseconds for one book, over repetitions of the whole set.
#[derive(Debug, Clone, Copy)]
pub struct Time {
    pub best: u128,
    pub mean: u128,
}

/// Decode, `elaborate`, encode. The books must be accepted ones.
pub fn whole(books: &[Vec<u8>], repetitions: u32) -> Time {
    time(books.len(), repetitions, || {
        let start = Instant::now();
        for bytes in books {
            black_box(once(black_box(bytes)));
        }
        start.elapsed()
    })
}

fn once(bytes: &[u8]) -> Option<Vec<u8>> {
    let (mut definitions, texts) = to_ast(&read(bytes).ok()?);
    vest::elab::elaborate(&mut definitions);
    write(&from_ast(&definitions, &texts).ok()?).ok()
}

/// `elaborate` alone: trees are made and dropped while the clock stands.
pub fn elaborate_alone(books: &[Vec<u8>], repetitions: u32) -> Time {
    let sources: Vec<_> = books
        .iter()
        .filter_map(|bytes| read(bytes).ok())
        .map(|book| to_ast(&book).0)
        .collect();
    time(books.len(), repetitions, || {
        let mut trees = sources.clone();
        let start = Instant::now();
        for tree in &mut trees {
            black_box(vest::elab::elaborate(black_box(tree)));
        }
        start.elapsed()
    })
}

fn time(books: usize, repetitions: u32, mut run: impl FnMut() -> Duration) -> Time {
    let each: Vec<u128> = (0..repetitions)
        .map(|_| run().as_nanos() / books.max(1) as u128)
        .collect();
    Time {
        best: each.iter().copied().min().unwrap_or(0),
        mean: each.iter().sum::<u128>() / each.len().max(1) as u128,
    }
}
