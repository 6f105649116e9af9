//! Which code comes first.

use super::edge::written;
use super::rng::Rng;
use crate::build::*;
use crate::limits::{BOOK_BYTES, NAME_BYTES};
use crate::tree::{Book, Combinator, Field};

/// Lifts that are 7, 8, 9, 10 or fine, in any order: the first one decides.
pub fn random(rng: &mut Rng) -> Book {
    let mut definitions = Vec::new();
    for _ in 0..rng.between(1, 4) {
        let count = rng.between(1, 4);
        let fields = (0..count).map(|_| rival(rng)).collect();
        let name = match rng.chance(30) {
            true => "q".repeat(rng.between(240, NAME_BYTES)),
            false => rng.pick(&["m", "r", "k"]).to_string(),
        };
        definitions.push(format(&name, structure(fields)));
    }
    let large = rng.chance(40);
    let mut source = book(definitions);
    if large {
        let bytes = written(&source).len();
        let text = vec![0; BOOK_BYTES - bytes - 20 - rng.below(120)];
        source.definitions.push(constant("~", &text));
    }
    source
}

/// A field for the race; several faults at one lift too.
fn rival(rng: &mut Rng) -> Field {
    let label = match rng.chance(25) {
        true => "y".repeat(rng.between(1, 255)),
        false => "s".to_string(),
    };
    let mut inside = Vec::new();
    if rng.chance(30) {
        inside.push(field("z", macro_call("zz", vec![])));
    }
    if rng.chance(30) {
        inside.push(field("u", bytes(&["free"])));
    }
    if rng.chance(30) {
        inside.push(field("e", structure(vec![field("i", bytes(&["free"]))])));
    }
    let inner = structure(inside);
    let combinator = match rng.below(4) {
        0 => Combinator::chained(
            inner,
            structure(vec![field("y", macro_call("zz", vec![]))]).into(),
        ),
        1 => Combinator::chained(enumeration(), inner.into()),
        _ => inner.into(),
    };
    match rng.chance(20) {
        true => dependent("free", combinator),
        false => field(&label, combinator),
    }
}
