//! Where a fault stands, and that every answer hands the place on.

use driver::answer::{answer, premise, Answer, Premise};
use driver::cases::{case, nested_case};
use driver::expand::Mode;
use driver::listing::listing;
use driver::places::places;
use driver::read::read;
use driver::stop::Refusal;
use std::collections::HashSet;

fn answered(bytes: &[u8], mode: Mode) -> Answer {
    answer(bytes, mode).expect("both readings agree")
}

/// What a book that does not read is answered with, by every call alike.
fn refused(bytes: &[u8]) -> Refusal {
    let refusal = read(bytes).expect_err("a fault");
    for mode in [Mode::Plain, Mode::Nested] {
        let refused = answered(bytes, mode);
        assert_eq!(refused, Answer::Refused(refusal));
        assert_eq!(listing(&refused), Ok(format!("{refusal}\n")));
        assert_eq!(premise(bytes, mode), Ok(Premise::Refused(refusal)));
    }
    refusal
}

#[test]
fn each_item_has_its_place() {
    let mut names = HashSet::new();
    for one in places() {
        assert_eq!(refused(&one.bytes), one.refusal, "{}", one.name);
        assert!(names.insert(one.name.clone()), "{}: twice", one.name);
    }
    assert_eq!(names.len(), 24 + 3 * (101 + 7));
}

#[test]
fn places_of_the_readings() {
    let at = |bytes: &[u8]| refused(bytes).to_string();
    assert_eq!(at(&[]), "refused 3 at 0");
    assert_eq!(at(&[1, 0]), "refused 3 at 2");
    assert_eq!(at(&[2, 0, 3, 0, 0x0e, 0, 5, 0]), "refused 3 at 2");
    assert_eq!(at(&[1, 0, 2, 0, 8, 0, 0, 0]), "refused 3 at 8");
    assert_eq!(at(&[0; 16_385]), "refused 2");
}

/// Held against the book alone, without the reader's cursor.
#[test]
fn a_place_shows_its_fault() {
    let mut seen = [0; 6];
    for number in 0..20_000 {
        let book = case(17, number).bytes;
        let Err(Refusal { code, at }) = read(&book) else {
            continue;
        };
        seen[code as usize] += 1;
        assert_eq!(refused(&book), Refusal { code, at });
        let item = book.get(at..).expect("no place is behind the book's end");
        match code {
            2 => assert_eq!(at, 0),
            3 => assert_ne!(at, 1, "the count is one item"),
            4 => {
                let name = &item[1..1 + usize::from(item[0])];
                assert!(std::str::from_utf8(name).is_err() || name.contains(&b'.'));
            }
            _ => assert!((1..=16).contains(&item[0])),
        }
    }
    assert!(seen[2..].iter().all(|count| *count >= 100), "{seen:?}");
}

#[test]
fn other_codes_have_no_place() {
    for number in 0..2000 {
        for (bytes, mode) in [
            (case(18, number).bytes, Mode::Plain),
            (nested_case(18, number).bytes, Mode::Nested),
        ] {
            if let Answer::Refused(refusal) = answered(&bytes, mode) {
                let placed = (3..=5).contains(&refusal.code);
                assert!(placed || refusal.at == 0, "{refusal:?}");
                assert_eq!(refusal.to_string().contains(" at "), placed);
            }
        }
    }
}
