//! Books on both sides of every limit.

use super::place;
use super::plain::{self, Size};
use super::rng::Rng;
use crate::answer::{answer, Answer};
use crate::build::*;
use crate::expand::Mode;
use crate::limits::{BOOK_BYTES, DEFINITIONS, LEVELS, NAME_BYTES};
use crate::measure::name_bytes;
use crate::tree::{Book, Combinator, Definition, Inner};
use crate::write::write;

/// A name that no other generated one collides with.
const PADDING: &str = "~padding";

/// Levels 63 to 66, in a body, a parameter's type or a macro.
pub fn levels(rng: &mut Rng) -> Book {
    let count = rng.between(LEVELS - 1, LEVELS + 2);
    let deep = place::levels(rng, count);
    let one = match rng.below(4) {
        0 | 1 => format("m", deep),
        2 => format_with("m", vec![("n", chainless(deep))], nothing()),
        _ => macro_definition("g", &[], deep),
    };
    let mut definitions = vec![one];
    if rng.chance(30) {
        definitions.push(macro_definition("f", &["a"], call("a", &[])));
    }
    book(definitions)
}

/// The inner of a combinator; of one with a chain, the chain's.
fn chainless(combinator: Combinator) -> Inner {
    match combinator.chain {
        None => combinator.inner,
        Some(chain) => vec(*chain),
    }
}

/// 511 to 513 definitions in the book itself.
pub fn definitions(rng: &mut Rng) -> Book {
    let count = rng.between(DEFINITIONS - 1, DEFINITIONS + 1);
    let kind = rng.below(3);
    let one = |number: usize| match kind {
        0 => byte_order(&[]),
        1 => constant(&number.to_string(), &[]),
        _ => format(&number.to_string(), nothing()),
    };
    book((0..count).map(one).collect())
}

/// Definitions and lifts that together make 511 to 513.
pub fn lifted_definitions(rng: &mut Rng) -> Book {
    let target = rng.between(DEFINITIONS - 1, DEFINITIONS + 1);
    match rng.chance(60) {
        true => {
            let lifts = rng.between(1, 300);
            let root = many_lifts(rng, lifts);
            filled(vec![format("m", root)], lifts, target)
        }
        false => lifted_by_macro(rng, target),
    }
}

/// Adds byte orders until definitions and lifts make `target`.
fn filled(mut definitions: Vec<Definition>, lifts: usize, target: usize) -> Book {
    let formats = definitions.iter().filter(|one| one.kind() == 1).count();
    definitions.extend((formats + lifts..target).map(|_| byte_order(&[])));
    book(definitions)
}

/// The same with few bytes: a macro is called again and again, and each call
/// leaves a struct of many enums to lift.
pub fn lifted_by_macro(rng: &mut Rng, target: usize) -> Book {
    let enums = rng.between(8, 25);
    let calls = rng.between(200, 480) / (enums + 1);
    let each = |_| field("", enumeration());
    let root = structure(
        (0..calls)
            .map(|_| field("", macro_call("f", vec![])))
            .collect(),
    );
    let definitions = vec![
        macro_definition("f", &[], structure((0..enums).map(each).collect())),
        format("", root),
    ];
    filled(definitions, calls * (enums + 1), target)
}

/// A struct of so many lifted fields, under one base or several.
pub fn many_lifts(rng: &mut Rng, count: usize) -> Inner {
    let labels = *rng.pick(&[1, 1, 3, 40]);
    let one = |number: usize| field(&format!("{}", number % labels), enumeration());
    structure((0..count).map(one).collect())
}

/// A book whose own bytes are 16,383 to 16,386 or far more: 0 or 2.
pub fn book_bytes(rng: &mut Rng) -> Vec<u8> {
    let target = match rng.chance(85) {
        true => rng.between(BOOK_BYTES - 1, BOOK_BYTES + 2),
        false => rng.between(BOOK_BYTES + 1, BOOK_BYTES + 5000),
    };
    if rng.chance(10) {
        return rng.bytes(target);
    }
    let source = plain::book(rng, Size::Small);
    let bytes = written(&source);
    padded(source, bytes.len(), target)
}

/// Adds a constant so that a number of bytes counted so far becomes `target`.
pub fn padded(mut source: Book, counted: usize, target: usize) -> Vec<u8> {
    let own = 6 + name_bytes(PADDING) + 2;
    let text = vec![b'.'; target.saturating_sub(counted + own)];
    source.definitions.push(constant(PADDING, &text));
    written(&source)
}

/// A book whose result has 16,383 to 16,386 bytes: 0 or 10.
pub fn result_bytes(rng: &mut Rng) -> Vec<u8> {
    let target = rng.between(BOOK_BYTES - 1, BOOK_BYTES + 2);
    let size = *rng.pick(&[Size::Small, Size::Medium]);
    let source = match rng.below(3) {
        0 => plain::book(rng, size),
        1 => book(vec![format("m", many_lifts(rng, 3))]),
        _ => copied_types(rng),
    };
    with_result_of(source, target)
}

/// Pads a book so that its result has `target` bytes. Padding in a constant is
/// neither walked nor copied, so the result grows by what the book grows.
pub fn with_result_of(source: Book, target: usize) -> Vec<u8> {
    match answer(&written(&source), Mode::Plain) {
        Ok(Answer::Done(done)) => padded(source, done.book.len(), target),
        _ => written(&source),
    }
}

/// A small book with a large result: each lift copies the type of its n.
pub fn copied_types(rng: &mut Rng) -> Book {
    let lifts = rng.between(8, 40);
    let bytes_each = (BOOK_BYTES - 400) / (lifts + 1) - 60;
    let mut fields = vec![dependent("n", padding(bytes_each))];
    let label = |number: usize| ["a", "b", "é"][number % 3];
    fields.extend((0..lifts).map(|number| {
        let inside = structure(vec![field("x", bytes(&["n"]))]);
        field(label(number), inside)
    }));
    book(vec![format("m", structure(fields))])
}

/// Chosen names of 254 to 257 bytes: long bases, taken bases, long suffixes.
pub fn lifted_names(rng: &mut Rng) -> Book {
    let target = rng.between(NAME_BYTES - 1, NAME_BYTES + 2);
    let label = "l".repeat(rng.between(0, 20));
    let segment = if label.is_empty() { 4 } else { label.len() };
    let taken = *rng.pick(&[0, 0, 1, 2, 11, 12]);
    let suffix = match taken {
        0 => 0,
        1..=10 => 2,
        _ => 3,
    };
    let name = long_name(rng, target - suffix - 1 - segment);
    let base = format!(
        "{name}_{}",
        if label.is_empty() {
            "anon"
        } else {
            label.as_str()
        }
    );
    let mut definitions = vec![format(&name, structure(vec![field(&label, enumeration())]))];
    for number in 0..taken {
        let other = match number {
            0 => base.clone(),
            _ => format!("{base}_{}", number - 1),
        };
        if other.len() <= NAME_BYTES {
            definitions.insert(rng.below(definitions.len() + 1), constant(&other, &[]));
        }
    }
    book(definitions)
}

/// So many bytes, two of them at times one character.
fn long_name(rng: &mut Rng, bytes: usize) -> String {
    let mut name = "é".repeat(rng.below(3).min(bytes / 2));
    name.push_str(&"q".repeat(bytes - name.len()));
    name
}

/// A base over 255 bytes under which nothing is lifted is nobody's business.
pub fn long_bases(rng: &mut Rng) -> Book {
    let long = "x".repeat(rng.between(100, NAME_BYTES));
    let inner = match rng.chance(50) {
        true => enumeration(),
        false => nothing(),
    };
    let walked = vec(vec(vec(Combinator::chained(bytes(&[]), inner.into()))));
    book(vec![format(
        "m",
        structure(vec![field(&long, walked), field(&long, int())]),
    )])
}
/// The bytes of a book; one that is too large for its own numbers is made of
/// zeros, which is 2 all the same.
pub fn written(source: &Book) -> Vec<u8> {
    write(source).unwrap_or_else(|_| vec![0; 4 * BOOK_BYTES])
}
