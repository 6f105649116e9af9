//! The nested mode beside the plain one: what its passes cost.

use crate::clock::ours;
use crate::kinds::written;
use crate::Elaborate;
use driver::build::{
    bytes, dependent, field, format, int, macro_call, macro_definition, structure, vec,
};
use driver::tree::{Field, Inner};

/// A book that so many passes settle: each macro has some fields, and the last of them is a Vec of calls of the next one.
pub fn chain(passes: usize) -> Vec<u8> {
    let macros = (0..passes).map(|number| {
        let next = number + 1;
        let calls = next < passes;
        let last = calls.then(|| vec(macro_call(&name(next), vec![])));
        macro_definition(&name(number), &[], structure(fields(last)))
    });
    let root = format("m", macro_call(&name(0), vec![]));
    written(macros.chain(std::iter::once(root)).collect()).expect("a book")
}

/// The book with the same result that one pass settles: its one macro has all of it.
pub fn whole(passes: usize) -> Vec<u8> {
    let inside = (1..passes).fold(None, |inner: Option<Inner>, _| {
        Some(vec(structure(fields(inner))))
    });
    let all = macro_definition(&name(0), &[], structure(fields(inside)));
    let root = format("m", macro_call(&name(0), vec![]));
    written(vec![all, root]).expect("a book")
}

fn name(number: usize) -> String {
    format!("f{number}")
}

fn fields(last: Option<Inner>) -> Vec<Field> {
    let mut fields = vec![dependent("n", int())];
    fields.extend((0..20).map(|number| field(&format!("part{number}"), bytes(&["n"]))));
    fields.extend(last.map(|inner| field("next", inner)));
    fields
}

/// A line for each number of passes: the nested mode on a chain of macros, the plain one on the book with the same result.
pub fn table(plain: Elaborate, nested: Elaborate) -> String {
    let head = "| passes | bytes | nested, microseconds | plain, one macro, microseconds | nested to plain |\n|---|---|---|---|---|\n";
    [1, 2, 4, 8, 16]
        .iter()
        .fold(head.to_string(), |text, &passes| {
            let (chain, whole) = (chain(passes), whole(passes));
            let (many, one) = (ours(nested, &chain), ours(plain, &whole));
            text + &format!(
                "| {passes} | {} | {:.1} | {:.1} | {:.2} |\n",
                chain.len(),
                many as f64 / 1000.0,
                one as f64 / 1000.0,
                many as f64 / one.max(1) as f64
            )
        })
}
