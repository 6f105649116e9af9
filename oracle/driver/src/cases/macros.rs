//! Macros: what is substituted where, in which order, and what is left alone.

use super::rng::Rng;
use crate::build::*;
use crate::tree::{Book, Cases, Combinator, Definition, Inner, Leaf};

const MACROS: [&str; 3] = ["f", "g", "f"];
const PARAMS: [&str; 4] = ["a", "b", "c", "a"];

pub fn random(rng: &mut Rng) -> Book {
    let mut definitions: Vec<Definition> = (0..rng.between(1, 3)).map(|_| macro_of(rng)).collect();
    for number in 0..rng.between(1, 2) {
        let depth = rng.between(0, 3);
        let one = format(["m", "r"][number], caller(rng, depth));
        definitions.insert(rng.below(definitions.len() + 1), one);
    }
    if rng.chance(20) {
        definitions.push(format("a", nothing()));
    }
    book(definitions)
}

fn macro_of(rng: &mut Rng) -> Definition {
    let count = rng.weighted(&[8, 30, 40, 22]);
    let params: Vec<&str> = (0..count).map(|_| one_of(rng, &PARAMS)).collect();
    let depth = rng.between(0, 3);
    let body = body(rng, depth);
    let body = match rng.chance(20) {
        true => Combinator::chained(body.inner, call("a", &[]).into()),
        false => body,
    };
    macro_definition(one_of(rng, &MACROS), &params, body)
}

/// Calls of parameters in every place that substitution reaches, and in some
/// that it does not.
fn body(rng: &mut Rng, depth: usize) -> Combinator {
    if depth == 0 {
        return leaf_of_body(rng).into();
    }
    let below = depth - 1;
    match rng.below(10) {
        0 | 1 => structure(vec![
            field("x", body(rng, below)),
            dependent("y", body(rng, below)),
        ])
        .into(),
        2 => vec(body(rng, below)).into(),
        3 => option(body(rng, below)).into(),
        4 => wrap(body(rng, below)).into(),
        5 => array(&["a"], body(rng, below)).into(),
        6 => choice(None, Cases::Enums(vec![("A".into(), body(rng, below))])).into(),
        7 => choice(None, Cases::Ints(vec![(vec![], body(rng, below))])).into(),
        8 => choice(None, Cases::Arrays(vec![(vec![], body(rng, below))])).into(),
        _ => Combinator::chained(leaf_of_body(rng), body(rng, below)),
    }
}

fn leaf_of_body(rng: &mut Rng) -> Inner {
    let name = one_of(rng, &PARAMS);
    match rng.below(8) {
        0 => leaf(Leaf::Tail),
        1 => call(name, &["k"]),
        2 => macro_call(one_of(rng, &["zz", "f"]), vec![call(name, &[])]),
        _ => call(name, &[]),
    }
}

/// A known call somewhere below a root.
fn caller(rng: &mut Rng, depth: usize) -> Combinator {
    let below = depth.saturating_sub(1);
    let known = |rng: &mut Rng| macro_call(one_of(rng, &MACROS), arguments(rng));
    if depth == 0 {
        return known(rng).into();
    }
    match rng.below(9) {
        0 | 1 => structure(vec![field("s", caller(rng, below)), field("t", known(rng))]).into(),
        2 => vec(caller(rng, below)).into(),
        3 => option(caller(rng, below)).into(),
        4 => wrap(caller(rng, below)).into(),
        5 => array(&[], caller(rng, below)).into(),
        6 => choice(None, Cases::Ints(vec![(vec![], caller(rng, below))])).into(),
        7 => Combinator::chained(bytes(&[]), caller(rng, below)),
        _ => Combinator::chained(known(rng), caller(rng, below)),
    }
}

/// Too few, enough or too many; some call parameters, earlier or later ones.
fn arguments(rng: &mut Rng) -> Vec<Inner> {
    let count = rng.weighted(&[8, 30, 40, 15, 7]);
    (0..count)
        .map(|number| argument(rng, number as u8))
        .collect()
}

fn argument(rng: &mut Rng, number: u8) -> Inner {
    let name = one_of(rng, &PARAMS);
    match rng.below(9) {
        0 | 1 => call(name, &[]),
        2 => vec(call(name, &[])),
        3 => structure(vec![field("z", call(name, &[]))]),
        4 => macro_call(one_of(rng, &["f", "zz"]), vec![call(name, &[])]),
        5 => vec(Combinator::chained(bytes(&[]), call(name, &[]).into())),
        6 => enumeration(),
        _ => Inner::Leaf(Leaf::Nothing, vec![b'0' + number]),
    }
}

fn one_of(rng: &mut Rng, names: &[&'static str]) -> &'static str {
    names[rng.below(names.len())]
}
