//! What could be slow.

use super::edge::many_lifts;
use super::growth::many_params;
use super::plain::{self, Size};
use super::rng::Rng;
use crate::build::*;
use crate::limits::LEVELS;
use crate::tree::{Book, Field};

/// Books made to hurt: everything that could be slow at once large.
pub fn random(rng: &mut Rng) -> Book {
    match rng.below(6) {
        0 => {
            let count = rng.between(300, 520);
            book(vec![format("", many_lifts(rng, count))])
        }
        1 => many_roots(rng),
        2 => lift_at_each_level(rng),
        3 => many_params(rng),
        4 => many_small_formats(rng),
        _ => plain::book(rng, Size::Large),
    }
}

/// Thousands of roots in one length, few of them different.
fn many_roots(rng: &mut Rng) -> Book {
    let count = rng.between(1000, 5000);
    let names = ["a", "b", "", "ab", "é"];
    let roots: Vec<&str> = (0..count).map(|_| *rng.pick(&names)).collect();
    let mut fields: Vec<Field> = names.iter().map(|name| dependent(name, int())).collect();
    fields.push(field("s", structure(vec![field("x", bytes(&roots))])));
    book(vec![format("m", structure(fields))])
}

/// A struct in a struct in a struct, each with a use of what is outside.
fn lift_at_each_level(rng: &mut Rng) -> Book {
    let count = rng.between(40, LEVELS - 1);
    let mut inside = structure(vec![field("", bytes(&["n"]))]);
    for number in 2..count {
        let binder = if number % 7 == 0 { "n" } else { "k" };
        inside = structure(vec![dependent(binder, int()), field("", inside)]);
    }
    book(vec![format_with("m", vec![("n", int())], inside)])
}

fn many_small_formats(rng: &mut Rng) -> Book {
    let count = rng.between(200, 300);
    let one = |number: usize| {
        let inside = if number.is_multiple_of(3) {
            enumeration()
        } else {
            int()
        };
        format(&format!("f{number}"), structure(vec![field("a", inside)]))
    };
    book((0..count).map(one).collect())
}
