//! Each book of docs/CODES.md gets the code it stands under, and the place that is told there.

use compare::callee::Call;
use compare::case::{expected, Case, Out, Sizes, PLAIN};
use std::collections::BTreeMap;

const PAGE: &str = include_str!("../../../docs/CODES.md");

/// The sections of the page by code.
fn sections() -> BTreeMap<u32, &'static str> {
    let code = |section: &str| section.split(':').next()?.parse().ok();
    let sections = PAGE.split("\n## ").skip(1);
    sections
        .map(|section| {
            (
                code(section).expect("a section begins with its code"),
                section,
            )
        })
        .collect()
}

/// The place that a section tells of its book: 0 where it tells none.
fn place(code: u32, section: &str) -> u32 {
    let told = section.split(&format!("`refused {code} at ")).nth(1);
    let place = told.and_then(|rest| rest.split('`').next());
    place.map_or(0, |place| place.parse().expect("a place"))
}

/// The books of the page by code, and one for 2, which is too long to be shown.
fn books() -> BTreeMap<u32, Vec<u8>> {
    let mut books = BTreeMap::from([(2, vec![0; 16_385])]);
    for (code, section) in sections() {
        let Some((_, rest)) = section.split_once("```hex\n") else {
            continue;
        };
        let hex = rest.split("```").next().unwrap_or_default();
        let bytes = hex
            .split_whitespace()
            .map(|byte| u8::from_str_radix(byte, 16));
        books.insert(code, bytes.collect::<Result<_, _>>().expect("bytes in hex"));
    }
    books
}

fn buffers(code: u32) -> Sizes {
    match code {
        1 => Sizes {
            work: 65_535,
            ..PLAIN
        },
        11 => Sizes {
            out: Out::Bytes(1),
            ..PLAIN
        },
        _ => PLAIN,
    }
}

#[test]
fn each_book_has_its_code() {
    let books = books();
    let codes: Vec<u32> = books.keys().copied().collect();
    assert_eq!(codes, (1..=12).collect::<Vec<u32>>());
    for (code, book) in books {
        let case = Case {
            call: match code {
                12 => Call::Nested,
                _ => Call::Elaborate,
            },
            book,
            sizes: buffers(code),
        };
        assert_eq!(
            expected(&case)
                .expect("the oracle agrees with itself")
                .numbers,
            [code, 0, 0, 0, place(code, sections()[&code])]
        );
    }
}

#[test]
fn the_codes_with_a_place_tell_it() {
    for (code, section) in sections() {
        let told = section.contains(&format!("`refused {code} at "));
        assert_eq!(told, (3..=5).contains(&code), "code {code}");
    }
}
