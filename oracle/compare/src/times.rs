//! Time against size, of books that are refused at their very last byte: what reading costs, and nothing else but the
//! constant cost of a call, which a book that is refused at once has too.

use crate::callee::{Call, Callee, Request, Times};
use crate::case::WORK_BYTES;
use driver::build::*;
use driver::limits::BOOK_BYTES;
use driver::read::read;
use driver::tree::{Cases, Definition, Inner, Leaf};
use driver::write::write;

const SIZES: [usize; 5] = [1024, 2048, 4096, 8192, BOOK_BYTES];
const TIMES: u32 = 400;

/// A shape: its book with so many items.
type Shape = (&'static str, fn(usize) -> Vec<Definition>);

const SHAPES: [Shape; 9] = [
    ("fields", |items| {
        one(structure(repeated(
            items,
            field("number", sized("@n ", &["n"])),
        )))
    }),
    ("small formats", |items| (0..items).map(small).collect()),
    ("64 levels", |items| {
        one(structure(repeated(items, field("a", vecs(62)))))
    }),
    ("long names", |items| {
        one(structure(repeated(items, field(&"é".repeat(60), int()))))
    }),
    ("long texts", |items| {
        one(structure(repeated(items, field("a", padding(200)))))
    }),
    ("cases", |items| {
        let case = ("Case".to_string(), call("m", &["hdr.len", "n"]).into());
        one(choice(Some("n"), Cases::Enums(repeated(items, case))))
    }),
    ("formats that call", |items| {
        (0..items).map(|number| calling(number, items)).collect()
    }),
    ("macros and calls", |items| {
        (0..items)
            .flat_map(|number| with_macro(number, items))
            .collect()
    }),
    ("macro arguments", |items| {
        one(macro_call(
            "f",
            repeated(items, macro_call("g", vec![int()])),
        ))
    }),
];

fn one(root: Inner) -> Vec<Definition> {
    vec![format("m", root)]
}

fn repeated<T: Clone>(items: usize, item: T) -> Vec<T> {
    vec![item; items]
}

fn sized(text: &str, roots: &[&str]) -> Inner {
    let mut size = length(roots);
    size.text = text.as_bytes().to_vec();
    Inner::Bytes(size)
}

/// No shorter than a book of 512 can have them.
fn small(number: usize) -> Definition {
    let int = Inner::Leaf(Leaf::ConstraintInt, b"u16 | 0..1".to_vec());
    format(&format!("f{number}"), structure(vec![field("a", int)]))
}

/// A format that calls one far away, by name.
fn calling(number: usize, items: usize) -> Definition {
    let called = format!("format{}", (number + items / 2) % items);
    format(
        &format!("format{number}"),
        structure(vec![field("a", call(&called, &[]))]),
    )
}

/// A macro, and a format that calls one far away.
fn with_macro(number: usize, items: usize) -> Vec<Definition> {
    let called = format!("macro{}", (number + items / 2) % items);
    let body = structure(vec![field("a", call("a", &[]))]);
    let own = macro_definition(&format!("macro{number}"), &["a"], body);
    let root = structure(vec![field("a", macro_call(&called, vec![int()]))]);
    vec![own, format(&format!("format{number}"), root)]
}

fn vecs(count: usize) -> Inner {
    (0..count).fold(nothing(), |inner, _| vec(inner))
}

/// The largest book of a shape with at most so many bytes.
fn largest(shape: &Shape, bytes: usize) -> Result<Vec<u8>, String> {
    let made = |items: usize| write(&book(shape.1(items)));
    let mut items = 1;
    while made(items + 1)?.len() <= bytes {
        items += 1;
    }
    made(items)
}

/// Its last byte says that no chain follows; 2 says nothing.
fn refused_at_the_end(mut book: Vec<u8>) -> Result<Vec<u8>, String> {
    if let Some(last) = book.last_mut() {
        *last = 2;
    }
    match read(&book) {
        Err(fault) if fault.code == 3 && fault.at + 1 == book.len() => Ok(book),
        other => Err(format!("not refused at its end: {other:?}")),
    }
}

/// Two tables in Markdown, nanoseconds per byte by shape and size: reading alone, then the whole premise test of the
/// same book undamaged.
pub fn times(callee: &mut dyn Callee) -> Result<String, String> {
    let mut reading = head("reading");
    let mut testing = head("premise");
    for shape in &SHAPES {
        let (mut read, mut tested) = (Vec::new(), Vec::new());
        for size in SIZES {
            let sound = largest(shape, size)?;
            let damaged = refused_at_the_end(sound.clone())?;
            let mut none = sound.clone();
            none[..2].fill(0xff);
            let constant = timed(callee, &none, 3)?;
            let bytes = sound.len() as f64;
            read.push((timed(callee, &damaged, 3)? - constant) / bytes);
            tested.push((timed(callee, &sound, 0)? - constant) / bytes);
        }
        reading += &row(shape.0, &read);
        testing += &row(shape.0, &tested);
    }
    Ok(format!("{reading}\n{testing}"))
}

fn head(what: &str) -> String {
    let sizes: Vec<String> = SIZES.iter().map(usize::to_string).collect();
    let line = "---|".repeat(SIZES.len() + 1);
    format!(
        "| {what} | {} | largest / smallest |\n|---|{line}\n",
        sizes.join(" | ")
    )
}

fn row(name: &str, each: &[f64]) -> String {
    let cells: Vec<String> = each.iter().map(|time| format!("{time:.2}")).collect();
    let ratio = each[each.len() - 1] / each[0];
    format!("| {name} | {} | {ratio:.2} |\n", cells.join(" | "))
}

fn timed(callee: &mut dyn Callee, book: &[u8], code: u32) -> Result<f64, String> {
    let reply = callee.call(&Request {
        call: Call::Premise,
        book,
        out: 0,
        work: WORK_BYTES,
        noise: 0,
        times: Times::ForTime(TIMES),
    })?;
    match reply.numbers[0] {
        got if got == code => Ok(f64::from(reply.measure)),
        got => Err(format!("answered {got} where {code} was expected")),
    }
}
