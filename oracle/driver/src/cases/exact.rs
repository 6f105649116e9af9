//! Every limit from both sides, by name: one book that just passes and one that
//! just does not.

use super::edge;
use super::growth;
use super::rng::Rng;
use crate::build::*;
use crate::limits::{code, BOOK_BYTES, DEFINITIONS, LEVELS, NAME_BYTES};
use crate::tree::{Book, Combinator, Inner};

pub struct Side {
    pub name: &'static str,
    pub bytes: Vec<u8>,
    pub code: u8,
}

/// A pair: `make(0)` is accepted, `make(1)` answers `code`.
pub(super) fn pair(name: &'static str, code: u8, make: impl Fn(usize) -> Vec<u8>) -> [Side; 2] {
    [0, 1].map(|past| Side {
        name,
        bytes: make(past),
        code: if past == 0 { code::DONE } else { code },
    })
}

pub fn both_sides() -> Vec<Side> {
    let rng = |number| Rng::of_case(1, number);
    let levels = |name, make: fn(Inner) -> Inner| {
        pair(name, code::TOO_DEEP, move |past| {
            let deep = (1..LEVELS + past).fold(nothing(), |inner, _| make(inner));
            edge::written(&book(vec![format("m", deep)]))
        })
    };
    let chains = |past| {
        let link = |next: Combinator, _| Combinator::chained(bytes(&[]), next);
        let deep = (1..LEVELS + past).fold(nothing().into(), link);
        edge::written(&book(vec![format("m", deep)]))
    };
    let grown = |name, make: fn(&mut Rng, usize) -> Book| {
        pair(name, code::MACRO_GROWTH, move |past| {
            edge::written(&make(&mut rng(7), past))
        })
    };
    let orders = |past| {
        let count = DEFINITIONS + past;
        edge::written(&book((0..count).map(|_| byte_order(&[])).collect()))
    };
    let lifted_name = |past| {
        let name = "q".repeat(NAME_BYTES + past - 2);
        edge::written(&book(vec![format(
            &name,
            structure(vec![field("a", enumeration())]),
        )]))
    };
    [
        pair("bytes of a book", code::BOOK_TOO_LONG, |past| {
            edge::padded(book(vec![]), 2, BOOK_BYTES + past)
        }),
        pair("definitions of a book", code::NOT_A_BOOK, orders),
        levels("levels of vecs", vec),
        levels("levels of options", option),
        levels("levels of wraps", wrap),
        levels("levels of arrays", |inner| array(&[], inner)),
        levels("levels of macro arguments", |inner| {
            macro_call("f", vec![inner])
        }),
        pair("levels of chains", code::TOO_DEEP, chains),
        grown("bytes after one parameter", growth::step_bytes),
        grown("levels after one parameter", growth::step_levels),
        grown("bytes on the way", growth::shrinking),
        grown("bytes of the book left", growth::left_bytes),
        grown("levels of the book left", growth::left_levels),
        pair(
            "bytes of a lifted name",
            code::LIFTED_NAME_TOO_LONG,
            lifted_name,
        ),
        pair("bytes of a result", code::RESULT_TOO_LARGE, |past| {
            edge::with_result_of(edge::copied_types(&mut rng(5)), BOOK_BYTES + past)
        }),
        pair("definitions of a result", code::RESULT_TOO_LARGE, |past| {
            edge::written(&edge::lifted_by_macro(&mut rng(3), DEFINITIONS + past))
        }),
    ]
    .into_iter()
    .flatten()
    .collect()
}
