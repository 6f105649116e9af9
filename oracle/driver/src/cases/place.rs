//! All tags in all positions: a way down through positions, a tag at its end.

use super::rng::Rng;
use crate::build::*;
use crate::tree::{Book, Cases, Combinator, Definition, Inner, LEAVES};

/// The places a combinator can stand in, below another one.
pub const STEPS: usize = 12;
/// Leaves first, then the other nine tags with the three kinds of choice.
pub const TAGS: usize = LEAVES.len() + 11;

/// One step down. A macro's argument is an inner: its chain is dropped.
pub fn step(number: usize, child: Combinator) -> Combinator {
    match number % STEPS {
        0 => Combinator::chained(bytes(&[]), child),
        1 => Combinator::chained(nothing(), child),
        2 => structure(vec![field("a", child)]).into(),
        3 => structure(vec![dependent("n", child), field("b", bytes(&["n"]))]).into(),
        4 => wrap(child).into(),
        5 => choice(Some("n"), Cases::Enums(vec![("A-b".into(), child)])).into(),
        6 => choice(
            None,
            Cases::Ints(vec![(vec![1], nothing().into()), (vec![2], child)]),
        )
        .into(),
        7 => choice(None, Cases::Arrays(vec![(vec![], child)])).into(),
        8 => vec(child).into(),
        9 => array(&["n"], child).into(),
        10 => option(child).into(),
        _ => macro_call("f", vec![child.inner]).into(),
    }
}

/// Each tag once, with a small inside.
pub fn tagged(number: usize) -> Inner {
    let others = number % TAGS;
    if others < LEAVES.len() {
        return Inner::Leaf(LEAVES[others], vec![others as u8]);
    }
    match others - LEAVES.len() {
        0 => structure(vec![field("x", nothing())]),
        1 => wrap(nothing()),
        2 => choice(
            Some("n.x"),
            Cases::Enums(vec![("V".into(), nothing().into())]),
        ),
        3 => choice(None, Cases::Ints(vec![(vec![7], enumeration().into())])),
        4 => choice(Some("n"), Cases::Arrays(vec![])),
        5 => vec(enumeration()),
        6 => array(&["n", "n"], nothing()),
        7 => bytes(&["n"]),
        8 => option(int()),
        9 => call("m", &["n", "n.y"]),
        _ => macro_call("f", vec![nothing(), int()]),
    }
}

/// The whole book: the way stands in a body, a parameter's type or a macro.
pub fn along(steps: &[usize], tag: usize, home: usize, bound: bool, known: bool) -> Book {
    let end: Combinator = tagged(tag).into();
    let way = steps
        .iter()
        .rev()
        .fold(end, |below, number| step(*number, below));
    let params = match bound {
        true => vec![("n", int())],
        false => vec![],
    };
    let mut definitions: Vec<Definition> = match home % 3 {
        0 => vec![format_with("m", params, way)],
        1 => vec![format_with(
            "m",
            vec![("n", way.inner)],
            vec(structure(vec![field("u", bytes(&["n"]))])),
        )],
        _ => vec![
            macro_definition("g", &["m"], way),
            format_with(
                "m",
                params,
                structure(vec![field("c", macro_call("g", vec![int()]))]),
            ),
        ],
    };
    if known {
        definitions.push(macro_definition(
            "f",
            &["a"],
            structure(vec![field("x", call("a", &[]))]),
        ));
    }
    book(definitions)
}

/// A random way of one to four steps.
pub fn random(rng: &mut Rng) -> Book {
    let count = rng.between(1, 4);
    let steps: Vec<usize> = (0..count).map(|_| rng.below(STEPS)).collect();
    let tag = rng.below(TAGS);
    let home = rng.weighted(&[70, 10, 20]);
    let (bound, known) = (rng.chance(85), rng.chance(60));
    along(&steps, tag, home, bound, known)
}

/// A combinator with exactly so many levels.
pub fn levels(rng: &mut Rng, count: usize) -> Combinator {
    let mut deep: Combinator = nothing().into();
    for _ in 1..count {
        let number = match rng.chance(40) {
            true => 8,
            false => *rng.pick(&[0, 1, 2, 4, 8, 9, 10, 11]),
        };
        deep = one_deeper(number, deep);
    }
    deep
}

/// As `step`, but never more than one level, and nothing used that needs n.
fn one_deeper(number: usize, child: Combinator) -> Combinator {
    match number {
        9 => array(&[], child).into(),
        // A chain inside a macro's argument would be lost with its levels.
        11 if child.chain.is_none() => macro_call("f", vec![child.inner]).into(),
        11 => vec(child).into(),
        other => step(other, child),
    }
}
