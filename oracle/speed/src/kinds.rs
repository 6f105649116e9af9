//! The kinds of books on which speed is measured. All of them are accepted ones.

use crate::Named;
use driver::answer::{answer, Answer};
use driver::build::{
    book, bytes, dependent, enumeration, field, format, int, macro_call, macro_definition, nothing,
    structure, vec,
};
use driver::cases::case;
use driver::expand::Mode;
use driver::tree::{Definition, Inner};
use driver::write::write;
use std::fs;
use std::path::Path;

/// A kind of books: its name, and its books.
pub type Kind = (&'static str, Vec<Named>);

pub const WORKED: &str = "worked";
pub const TYPICAL: &str = "typical, 200 to 4,000 bytes";
pub const HURTING: &str = "made to hurt";

/// The length of the result, if there is one.
pub fn result(book: &[u8]) -> Option<usize> {
    match answer(book, Mode::Plain) {
        Ok(Answer::Done(done)) => Some(done.book.len()),
        Ok(Answer::Refused(_)) => None,
        Err(message) => panic!("a fault of the oracle: {message}"),
    }
}

fn accepted(book: &[u8]) -> bool {
    result(book).is_some()
}

pub fn kinds() -> Vec<Kind> {
    let (worked, examples) = files();
    let mut generated: Vec<Named> = (0..20000)
        .map(|number| (format!("case {number}"), case(1, number).bytes))
        .filter(|(_, book)| accepted(book))
        .collect();
    let typical = generated
        .iter()
        .filter(|(_, book)| (200..=4000).contains(&book.len()))
        .take(2000)
        .cloned()
        .collect();
    generated.sort_by_key(|(_, book)| std::cmp::Reverse(book.len()));
    generated.truncate(100);
    vec![
        (WORKED, worked),
        ("examples", examples),
        (TYPICAL, typical),
        ("100 largest", generated),
        (HURTING, hurting()),
    ]
}

/// The worked books of document 01 and the other examples.
fn files() -> (Vec<Named>, Vec<Named>) {
    let folder = Path::new(env!("CARGO_MANIFEST_DIR")).join("../../examples");
    let mut found: Vec<Named> = fs::read_dir(folder)
        .expect("examples")
        .filter_map(|entry| {
            let path = entry.expect("an entry").path();
            let name = path
                .file_name()?
                .to_str()?
                .strip_suffix(".book")?
                .to_string();
            Some((name, fs::read(&path).expect("a book")))
        })
        .filter(|(_, book)| accepted(book))
        .collect();
    found.sort();
    found
        .into_iter()
        .partition(|(name, _)| name.starts_with('p') && name.as_bytes()[1].is_ascii_digit())
}

/// Books that cost much for their size.
pub fn hurting() -> Vec<Named> {
    let roots = |count| bytes(&vec!["n"; count]);
    let lone = |inner| {
        let root = structure(vec![dependent("n", int()), field("x", inner)]);
        vec![format("m", root)]
    };
    let lifts = structure(vec![field("a", enumeration()); 480]);
    let small = |number: usize| {
        let name = format!("f{number}");
        format(&name, structure(vec![field("x", nothing())]))
    };
    [
        ("480 lifts under one base", vec![format("", lifts)]),
        (
            "4,000 roots in one length",
            lone(structure(vec![field("b", roots(4000))])),
        ),
        (
            "a lift at each of 64 levels",
            lone(nested(62, enumeration(), |inner| {
                structure(vec![field("a", inner)])
            })),
        ),
        (
            "the same around 1,500 roots",
            lone(nested(61, roots(1500), |inner| {
                structure(vec![field("a", inner)])
            })),
        ),
        (
            "62 Vecs around 7,000 roots",
            lone(nested(62, roots(7000), vec)),
        ),
        ("500 small definitions", (0..500).map(small).collect()),
        (
            "2,600 uses of the last of 1,000 labels",
            lone(labelled(&two_letters(1000), 999, 2600)),
        ),
        (
            "1,600 uses of the first of 800 labels of one hash",
            lone(labelled(&of_one_hash("", 800), 0, 1600)),
        ),
        (
            "115 uses of the last of 100 such labels of 31 bytes",
            lone(labelled(&of_one_hash(&"A".repeat(27), 100), 99, 115)),
        ),
        (
            "230 uses of the last of 200 such labels of 31 bytes",
            lone(labelled(&of_one_hash(&"A".repeat(27), 200), 199, 230)),
        ),
        (
            "350 calls of the first of 170 macros",
            called(&letters(4, 170), 0, 350),
        ),
        (
            "700 calls of the first of 340 macros",
            called(&letters(4, 340), 0, 700),
        ),
        (
            "100 calls of the first of 90 macros of 31 bytes, each apart in a bit of its own",
            called(&one_bit_each(31, 90), 0, 100),
        ),
        (
            "200 calls of the first of 180 such macros",
            called(&one_bit_each(31, 180), 0, 200),
        ),
        (
            "70 lifts beside 120 such names of 14 bytes",
            lifted_beside(120, 70),
        ),
        ("140 lifts beside 240 such names", lifted_beside(240, 140)),
    ]
    .map(|(name, definitions)| (name.to_string(), written(definitions).expect("a book")))
    .to_vec()
}

/// Labels that are bound, and so many uses of one of them: each use is looked up among all of them.
fn labelled(names: &[String], used: usize, uses: usize) -> Inner {
    let mut fields: Vec<_> = names.iter().map(|name| dependent(name, int())).collect();
    fields.push(field("z", bytes(&vec![names[used].as_str(); uses])));
    structure(fields)
}

/// Macros, and so many calls of one of them: each call is looked up among all of them.
fn called(names: &[String], used: usize, calls: usize) -> Vec<Definition> {
    let call = |_| field("", macro_call(&names[used], vec![]));
    let root = format("m", structure((0..calls).map(call).collect()));
    let defined = |name: &String| macro_definition(name, &[], nothing());
    names
        .iter()
        .map(defined)
        .chain(std::iter::once(root))
        .collect()
}

/// Formats whose names are taken, and lifts under a base that is as long: each is looked up among all of them.
fn lifted_beside(names: usize, lifts: usize) -> Vec<Definition> {
    let fields = vec![field("a", enumeration()); lifts];
    let base = "A".repeat(12);
    let taken = one_bit_each(14, names);
    let beside = taken.iter().map(|name| format(name, nothing()));
    std::iter::once(format(&base, structure(fields)))
        .chain(beside)
        .collect()
}

/// Names of so many bytes: the first of 'A's alone, each other one with one bit in which no other differs from the first.
fn one_bit_each(len: usize, count: usize) -> Vec<String> {
    let bit = |number: usize| {
        let mut name = vec![b'A'; len];
        if 0 < number {
            name[(number - 1) / 6 % len] ^= 1 << ((number - 1) % 6);
        }
        String::from_utf8(name).expect("ASCII")
    };
    (0..count).map(bit).collect()
}

/// So many names of so many letters.
fn letters(len: u32, count: usize) -> Vec<String> {
    let digit = |n: usize, place: u32| char::from(b'A' + (n / 58_usize.pow(place) % 58) as u8);
    let name = |n: usize| (0..len).map(|place| digit(n, place)).collect();
    (0..count).map(name).collect()
}

fn two_letters(count: usize) -> Vec<String> {
    let letter = |n: usize| char::from(b'A' + (n % 58) as u8);
    let name = |n: usize| [letter(n / 58), letter(n)].iter().collect();
    (0..count).map(name).collect()
}

/// Names that end in four letters and share a head in the port's table of labels (crates/layout, crates/collect_params), and three bits of the hash more.
fn of_one_hash(beginning: &str, count: usize) -> Vec<String> {
    let letters = |n: usize| [n / 195_112, n / 3364, n / 58, n].map(|n| b'A' + (n % 58) as u8);
    let name = |n: usize| {
        beginning
            .chars()
            .chain(letters(n).map(char::from))
            .collect()
    };
    (0..)
        .map(name)
        .filter(|name: &String| hash(name.as_bytes()) >> 23 == 0)
        .take(count)
        .collect()
}

/// The hash of a name in the port (crates/layout).
fn hash(name: &[u8]) -> u64 {
    let mix = |hash: u64, word: u64| {
        let product = (hash + word + 1) * 1_640_531_527;
        (product + (product >> 32)) % (1 << 32)
    };
    let words = name.chunks_exact(4);
    let last = words.remainder();
    let (g, h) = words.fold((0, 0), |(g, h), word| {
        let word = u64::from(u32::from_le_bytes(word.try_into().expect("four bytes")));
        let low = (h + word + 1) % (1 << 32) * 2_654_435_761 % (1 << 32);
        (mix(g, word), low)
    });
    last.iter()
        .fold(mix(g, h), |hash, &byte| mix(hash, u64::from(byte)))
}

/// A node inside so many others.
pub fn nested(levels: usize, inside: Inner, around: fn(Inner) -> Inner) -> Inner {
    (0..levels).fold(inside, |inner, _| around(inner))
}

pub fn written(definitions: Vec<Definition>) -> Result<Vec<u8>, String> {
    write(&book(definitions))
}
