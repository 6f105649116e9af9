//! Nanoseconds of a call, ours and the Rust's: the quickest of many, as the machine may be doing other things.

use crate::Elaborate;
use driver::bench::whole;
use driver::limits::BOOK_BYTES;
use std::hint::black_box;
use std::time::{Duration, Instant};

const WORK_BYTES: usize = 65536;
/// Both get as many turns, of some calls each, so that what disturbs one disturbs the other.
const TURNS: u32 = 6;
const TURN: Duration = Duration::from_micros(800);
const CALLS: std::ops::RangeInclusive<u32> = 3..=60;

/// What a call takes, in nanoseconds.
#[derive(Debug, Clone, Copy)]
pub struct Pair {
    pub ours: u128,
    pub rust: u128,
}

impl Pair {
    pub fn ratio(&self) -> f64 {
        self.ours as f64 / self.rust.max(1) as f64
    }
}

/// The book must be an accepted one.
pub fn pair(elaborate: Elaborate, book: &[u8]) -> Pair {
    let (mut out, mut work) = (vec![0u8; BOOK_BYTES], vec![0u8; WORK_BYTES]);
    let mut ours = |calls: u32| {
        let each = (0..calls).map(|_| {
            let start = Instant::now();
            let answer = black_box(elaborate(black_box(book), &mut out, &mut work));
            let time = start.elapsed().as_nanos();
            assert_eq!(answer.0, 0, "a book is refused that the Rust takes");
            time
        });
        each.min().unwrap_or(u128::MAX)
    };
    let rust = |calls: u32| whole(std::slice::from_ref(&book.to_vec()), calls).best;
    let mut best = Pair {
        ours: ours(2),
        rust: rust(2),
    };
    let (our_calls, rust_calls) = (calls(best.ours), calls(best.rust));
    for _ in 0..TURNS {
        best.ours = best.ours.min(ours(our_calls));
        best.rust = best.rust.min(rust(rust_calls));
    }
    best
}

/// How many calls a turn has room for.
fn calls(time: u128) -> u32 {
    let room = TURN.as_nanos() / time.max(1);
    (room as u32).clamp(*CALLS.start(), *CALLS.end())
}

/// The quickest of our calls alone; the book must be an accepted one.
pub fn ours(elaborate: Elaborate, book: &[u8]) -> u128 {
    let (mut out, mut work) = (vec![0u8; BOOK_BYTES], vec![0u8; WORK_BYTES]);
    let each = (0..200).map(|_| {
        let start = Instant::now();
        let answer = black_box(elaborate(black_box(book), &mut out, &mut work));
        let time = start.elapsed().as_nanos();
        assert_eq!(answer.0, 0, "a book is refused");
        time
    });
    each.min().unwrap_or(u128::MAX)
}
