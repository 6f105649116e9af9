//! Macro growth around its limits.

use super::edge::written;
use super::rng::Rng;
use crate::build::*;
use crate::limits::{BOOK_BYTES, LEVELS};
use crate::tree::{Book, Combinator, Definition, Field, Inner};
use crate::write::combinator;

/// Macro growth at exactly a limit, past it, and past it only on the way.
pub fn random(rng: &mut Rng) -> Book {
    let past = rng.between(0, 3).saturating_sub(1);
    match rng.below(7) {
        0 => step_bytes(rng, past),
        1 => step_levels(rng, past),
        2 => left_bytes(rng, past),
        3 => left_levels(rng, past),
        4 => doubling(rng),
        5 => shrinking(rng, past),
        _ => many_params(rng),
    }
}

/// A combinator that is lost with the macro's chain, so that what it holds is
/// measured after each parameter and is not in the book that is left.
fn lost(combinator: impl Into<Combinator>) -> Combinator {
    Combinator::chained(nothing(), combinator.into())
}

fn caller(args: Vec<Inner>) -> Definition {
    format("m", structure(vec![field("c", macro_call("f", args))]))
}

/// The macro's combinator gets 16,384 bytes and `past` more, all but its root
/// lost in the end: 0 or 6.
pub fn step_bytes(rng: &mut Rng, past: usize) -> Book {
    let calls = rng.between(2, 6);
    let target = BOOK_BYTES + past;
    let fields = |text: usize| {
        let mut fields: Vec<Field> = (0..calls).map(|_| field("x", call("a", &[]))).collect();
        fields.push(field("t", padding(text)));
        lost(structure(fields))
    };
    // Each call of "a" is 5 bytes; the argument put in has 3 and its text.
    let bare = combinator_bytes(&fields(0)) - 5 * calls;
    let arg = (target - bare - rng.between(0, 40)) / calls - 3;
    let text = target - bare - calls * (3 + arg);
    let definitions = vec![
        macro_definition("f", &["a", "b"], fields(text)),
        caller(vec![padding(arg), nothing()]),
    ];
    book(definitions)
}

/// The macro's combinator gets 64 levels and `past` more, lost in the end.
pub fn step_levels(rng: &mut Rng, past: usize) -> Book {
    let above = rng.between(5, 40);
    let arg = LEVELS + past - above;
    book(vec![
        macro_definition("f", &["a", "b"], lost(vecs(above - 2, call("a", &[])))),
        caller(vec![vecs(arg, nothing()), nothing()]),
    ])
}

/// So many Vecs around an inner.
fn vecs(count: usize, inside: Inner) -> Inner {
    (0..count).fold(inside, |inner, _| vec(inner))
}

/// The book left has 16,384 bytes and `past` more.
pub fn left_bytes(rng: &mut Rng, past: usize) -> Book {
    let calls = rng.between(2, 9);
    let with = |text: usize, pad: usize| {
        let each = |_| field("x", macro_call("f", vec![]));
        let mut fields: Vec<Field> = (0..calls).map(each).collect();
        fields.push(field("t", padding(pad)));
        book(vec![
            macro_definition("f", &[], padding(text)),
            format("m", structure(fields)),
        ])
    };
    let left = |text: usize| {
        let each = |_| field("x", padding(text));
        let mut fields: Vec<Field> = (0..calls).map(each).collect();
        fields.push(field("t", padding(0)));
        written(&book(vec![format("m", structure(fields))])).len()
    };
    let text = (BOOK_BYTES - left(0) - rng.between(0, 50)) / calls;
    with(text, BOOK_BYTES + past - left(text))
}

/// A call at one depth, a body of the rest: 64 levels and `past` more.
pub fn left_levels(rng: &mut Rng, past: usize) -> Book {
    let body_levels = rng.between(2, 60);
    let above = LEVELS + past - body_levels;
    book(vec![
        macro_definition("f", &[], vecs(body_levels - 1, nothing())),
        format("m", vecs(above, macro_call("f", vec![]))),
    ])
}

/// Each parameter is put in twice by the one before: 2, 4, 8, .. calls.
fn doubling(rng: &mut Rng) -> Book {
    let count = rng.between(2, 40);
    let params: Vec<String> = (0..count).map(|number| format!("p{number}")).collect();
    let names: Vec<&str> = params.iter().map(String::as_str).collect();
    let twice = |name: &String| {
        structure(vec![
            field("l", call(name, &[])),
            field("r", call(name, &[])),
        ])
    };
    let args = params[1..].iter().map(twice).chain([nothing()]).collect();
    book(vec![
        macro_definition("f", &names, call("p0", &[])),
        caller(args),
    ])
}

/// Large after the first parameter, small after the second: 0 or 6.
pub fn shrinking(rng: &mut Rng, past: usize) -> Book {
    let calls = rng.between(2, 5);
    let each = |_| field("x", call("a", &[]));
    let fields: Vec<Field> = (0..calls).map(each).collect();
    let with = |pad: usize| {
        let mut fields = fields.clone();
        fields.push(field("t", padding(pad)));
        structure(fields).into()
    };
    let arg = (BOOK_BYTES - 200) / calls - 10;
    // The argument is a call of "b" with arguments of 200 bytes.
    let long = "z".repeat(199);
    let args: Vec<&str> = vec![long.as_str(); arg / 200];
    let bulk = call("b", &args);
    let bulk_bytes = combinator_bytes(&bulk.clone().into()) - 1;
    let bare = combinator_bytes(&with(0)) - 5 * calls + bulk_bytes * calls;
    let pad = (BOOK_BYTES + past).saturating_sub(bare);
    book(vec![
        macro_definition("f", &["a", "b"], with(pad.min(9000))),
        caller(vec![bulk, nothing()]),
    ])
}

/// A thousand parameters, some of them paired.
pub fn many_params(rng: &mut Rng) -> Book {
    let count = rng.between(200, 1200);
    let params: Vec<String> = (0..count).map(|number| format!("{number}")).collect();
    let names: Vec<&str> = params.iter().map(String::as_str).collect();
    let calls = (0..rng.between(1, 60)).map(|number| field("x", call(names[number * 3], &[])));
    let fields = calls.collect();
    let args = (0..rng.between(0, count + 5)).map(|_| nothing()).collect();
    book(vec![
        macro_definition("f", &names, structure(fields)),
        caller(args),
    ])
}

fn combinator_bytes(one: &Combinator) -> usize {
    combinator(one).map_or(0, |bytes| bytes.len())
}
