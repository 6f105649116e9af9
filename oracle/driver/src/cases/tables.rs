//! Books on both sides of the lengths at which the port takes longer tables: by the bytes of a book, by those of an
//! expanded book, and by the calls that an instance has on the way. Document 01 knows none of them.

use super::edge::{padded, written};
use crate::build::*;
use crate::tree::{Book, Combinator, Definition, Inner};

/// A book of at most so many bytes has tables for as many.
const BOOKS: [usize; 4] = [128, 512, 2048, 4096];
/// A short book is expanded into so many bytes, and into more only where they are not enough.
const EXPANDED: usize = 2048;
/// An instance has marks for so many calls, and for more likewise.
const CALLS: usize = 512;

pub fn around_tables() -> Vec<Vec<u8>> {
    let sides = |middle: usize| middle - 2..=middle + 2;
    let of_bytes = |bytes| [lifting(), calling()].map(|source| of_length(source, bytes));
    let books = BOOKS.into_iter().flat_map(sides).flat_map(of_bytes);
    let expanded = sides(EXPANDED).map(expanding_to);
    let instances = sides(CALLS).flat_map(|calls| [in_the_body(calls), on_the_way(calls)]);
    books.chain(expanded).chain(instances).collect()
}

fn of_length(source: Book, bytes: usize) -> Vec<u8> {
    let own = written(&source).len();
    padded(source, own, bytes)
}

/// A struct is lifted, with a parameter.
fn lifting() -> Book {
    let inside = structure(vec![field("b", bytes(&["n"]))]);
    book(vec![format(
        "m",
        structure(vec![dependent("n", int()), field("a", inside)]),
    )])
}

/// The same out of a macro.
fn calling() -> Book {
    let inside = structure(vec![field("b", call("a", &[]))]);
    book(vec![
        macro_definition("f", &["a"], inside),
        calling_with(vec![int()]),
    ])
}

fn calling_with(args: Vec<Inner>) -> Definition {
    format("m", structure(vec![field("c", macro_call("f", args))]))
}

fn repeated(count: usize, inner: Inner) -> Inner {
    structure((0..count).map(|_| field("x", inner.clone())).collect())
}

/// A book of less than 512 bytes whose expansion has so many.
fn expanding_to(bytes: usize) -> Vec<u8> {
    let with = |text: usize, called: Inner| {
        let fields = vec![field("c", called), field("t", padding(text))];
        format("m", structure(fields))
    };
    let made = book(vec![with(0, repeated(20, padding(88)))]);
    let text = bytes - written(&made).len();
    written(&book(vec![
        macro_definition("f", &["a"], repeated(20, call("a", &[]))),
        with(text, macro_call("f", vec![padding(88)])),
    ]))
}

/// A macro whose body has so many calls; they are lost with its chain.
fn in_the_body(calls: usize) -> Vec<u8> {
    let body = Combinator::chained(nothing(), repeated(calls, call("a", &[])).into());
    written(&book(vec![
        macro_definition("f", &["a"], body),
        calling_with(vec![nothing()]),
    ]))
}

/// An instance that has so many calls after its first parameter, and few after its second.
fn on_the_way(calls: usize) -> Vec<u8> {
    let (first, second) = (20, 24);
    let mut fields: Vec<_> = (0..first).map(|_| field("x", call("a", &[]))).collect();
    fields.extend((first * second..calls).map(|_| field("y", call("z", &[]))));
    let body = Combinator::chained(nothing(), structure(fields).into());
    written(&book(vec![
        macro_definition("f", &["a", "b"], body),
        calling_with(vec![repeated(second, call("b", &[])), nothing()]),
    ]))
}
