//! Books of several shapes and sizes, for time against size.

use crate::kinds::{nested, result, written};
use driver::build::{
    bytes, call, dependent, field, format, int, macro_call, macro_definition, nothing, padding,
    structure, vec,
};
use driver::tree::{Definition, Field, Inner, Leaf};

/// A shape: its name, and its book with so many items.
pub type Shape = (&'static str, fn(usize) -> Vec<Definition>);

pub const SHAPES: [Shape; 6] = [
    ("fields", |items| one(items, |_| bytes(&["n"]))),
    ("lifts", |items| {
        one(items, |_| structure(vec![field("size", bytes(&["n"]))]))
    }),
    ("62 levels", |items| {
        one(items, |_| nested(60, nothing(), vec))
    }),
    ("small formats", |items| (0..items).map(small).collect()),
    ("macros and calls", |items| {
        (0..items)
            .flat_map(|number| with_macro(number, items))
            .collect()
    }),
    ("long texts", |items| one(items, |_| padding(200))),
];

/// One format with so many fields behind one that binds n.
fn one(items: usize, inner: fn(usize) -> Inner) -> Vec<Definition> {
    let others = (0..items).map(|number| field(&format!("part{number}"), inner(number)));
    let fields: Vec<Field> = std::iter::once(dependent("n", int()))
        .chain(others)
        .collect();
    vec![format("m", structure(fields))]
}

/// No shorter than a book of 512 can have them.
fn small(number: usize) -> Definition {
    let int = Inner::Leaf(Leaf::ConstraintInt, b"u16 | 0..1".to_vec());
    format(&format!("f{number}"), structure(vec![field("a", int)]))
}

/// A macro, and a format that calls one far away.
fn with_macro(number: usize, items: usize) -> [Definition; 2] {
    let called = format!("macro{}", (number + items / 2) % items);
    let body = structure(vec![field("a", call("a", &[]))]);
    let root = structure(vec![field("a", macro_call(&called, vec![int()]))]);
    [
        macro_definition(&format!("macro{number}"), &["a"], body),
        format(&format!("format{number}"), root),
    ]
}

/// The largest book of a shape that has at most so many bytes, as its result has.
pub fn largest(shape: &Shape, bytes: usize) -> Vec<u8> {
    let fits = |items: usize| {
        let book = written(shape.1(items)).ok()?;
        let result = if book.len() <= bytes {
            result(&book)?
        } else {
            return None;
        };
        (result <= bytes).then_some(book)
    };
    let (mut best, mut too_many) = (None, bytes);
    let mut items = 1;
    while items < too_many {
        match fits(items) {
            Some(book) => best = Some((items, book)),
            None => too_many = items,
        }
        let known = best.as_ref().map_or(0, |best| best.0);
        items = if too_many == bytes {
            2 * items
        } else {
            (known + too_many).div_ceil(2)
        };
    }
    best.expect("one item fits").1
}
