//! The worked books and the examples through the archive.

use samulsto::*;
use std::fmt::Write;
use std::path::PathBuf;

fn examples() -> PathBuf {
    PathBuf::from(env!("CARGO_MANIFEST_DIR")).join("../../examples")
}

fn example(name: &str) -> Vec<u8> {
    std::fs::read(examples().join(name)).unwrap()
}

/// A refusal without a place.
fn error(refusal: Refusal) -> Error {
    Error { refusal, at: None }
}

fn error_at(refusal: Refusal, at: usize) -> Error {
    let at = Some(at);
    Error { refusal, at }
}

/// Document 01's listing of an answer, for names that need no escape.
fn listing(answer: Result<Elaborated, Error>) -> String {
    let result = match answer {
        Ok(result) => result,
        Err(Error { refusal, at: None }) => return format!("refused {}\n", refusal.code()),
        Err(Error {
            refusal,
            at: Some(at),
        }) => return format!("refused {} at {at}\n", refusal.code()),
    };
    let definitions = result.definitions();
    let mut text = format!("ok {} {}\n", definitions.len(), result.lifted());
    for definition in definitions {
        let name = definition.name.unwrap_or_default();
        let _ = match definition.kind {
            Kind::ByteOrder => writeln!(text, "order"),
            Kind::Constant => writeln!(text, "const {name}"),
            Kind::Format => {
                let word = if definition.lifted {
                    "lifted"
                } else {
                    "format"
                };
                let at = 1 + name.len();
                let parameters = u16::from_le_bytes([definition.body[at], definition.body[at + 1]]);
                writeln!(text, "{word} {name} {parameters}")
            }
        };
    }
    text
}

#[test]
fn every_example_has_its_listing() {
    let mut seen = 0;
    for entry in std::fs::read_dir(examples()).unwrap() {
        let path = entry.unwrap().path();
        if path.extension().is_some_and(|ending| ending == "book") {
            let wanted = std::fs::read_to_string(path.with_extension("listing")).unwrap();
            assert_eq!(
                listing(elaborate(&std::fs::read(&path).unwrap())),
                wanted,
                "{}",
                path.display()
            );
            seen += 1;
        }
    }
    assert!(seen >= 17, "{seen} examples");
}

#[test]
fn the_nested_example_has_both_its_listings() {
    let book = example("nested/packing-list.book");
    let text = |name| String::from_utf8(example(name)).unwrap();
    assert_eq!(
        listing(elaborate(&book)),
        text("nested/packing-list.listing")
    );
    assert_eq!(
        listing(elaborate_nested(&book)),
        text("nested/packing-list.nested")
    );
}

#[test]
fn macros_that_come_back_are_refused_in_nested_mode() {
    // format "" = ""!() and macro ""!() = ""!()
    let mut book = vec![2, 0, 1, 0, 14, 0, 8, 0, 4, 0, 22, 0, 8, 0];
    book.extend([0, 0, 0, 16, 0, 0, 0, 0].repeat(2));
    assert_eq!(elaborate_nested(&book), Err(error(Refusal::MacroCallLeft)));
    assert_eq!(elaborate(&book).map(|result| result.lifted()), Ok(0));

    let (mut out, mut work) = ([9; 64], vec![7; WORK_BYTES]);
    assert_eq!(
        elaborate_nested_into(&book, &mut out, &mut work),
        Err(error(Refusal::MacroCallLeft))
    );
    assert_eq!(out, [9; 64]);
    assert!(work.iter().all(|byte| *byte == 0));
}

#[test]
fn where_one_pass_is_enough_both_modes_answer_the_same() {
    for name in ["p03.book", "p04.book", "p09-both.book", "packing-list.book"] {
        let book = example(name);
        assert_eq!(elaborate_nested(&book), elaborate(&book), "{name}");
    }
}

#[test]
fn a_result_elaborates_to_itself() {
    let once = elaborate(&example("packing-list.book")).unwrap();
    let twice = elaborate(once.book()).unwrap();
    assert_eq!((once.book(), twice.lifted()), (twice.book(), 0));
    let once = elaborate_nested(&example("nested/packing-list.book")).unwrap();
    let twice = elaborate_nested(once.book()).unwrap();
    assert_eq!((once.book(), twice.lifted()), (twice.book(), 0));
}

#[test]
fn definitions_are_parts_of_the_book() {
    let result = elaborate(&example("p03.book")).unwrap();
    let bytes = result.book().as_ptr_range();
    let all: Vec<Definition> = result.definitions().collect();
    let names: Vec<_> = all
        .iter()
        .map(|one| (one.kind, one.name, one.lifted))
        .collect();
    let expected = [("msg", false), ("msg_hdr", true)];
    assert_eq!(
        names,
        expected.map(|(name, lifted)| (Kind::Format, Some(name), lifted))
    );
    for one in all {
        assert!(bytes.contains(&one.body.as_ptr()));
        assert!(bytes.contains(&one.name.unwrap().as_ptr()));
    }
    assert_eq!(
        result
            .definitions()
            .map(|one| one.body.len())
            .sum::<usize>()
            + 14,
        result.book().len()
    );
}

#[test]
fn the_premise_test_answers() {
    assert_eq!(premise(&[0, 0]), Ok(true));
    assert_eq!(premise(&[0]), Err(error_at(Refusal::NotABook, 0)));
    // format "" = "a", which is not defined
    let undefined = [1, 0, 1, 0, 8, 0, 9, 0, 0, 0, 0, 15, 1, b'a', 0, 0, 0];
    assert_eq!(premise(&undefined), Ok(false));
}

#[test]
fn buffers_of_the_caller() {
    let book = example("p03.book");
    let whole = elaborate(&book).unwrap();
    let length = whole.book().len();
    let mut work = vec![7; WORK_BYTES + 1];

    let mut out = vec![9; length + 1];
    let lent = elaborate_into(&book, &mut out, &mut work).unwrap();
    assert_eq!((lent.book(), lent.lifted()), (whole.book(), 1));
    assert_eq!(out[length], 9);
    assert!(work.iter().all(|byte| *byte == 0));

    let mut short = vec![9; length - 1];
    work.fill(7);
    assert_eq!(
        elaborate_into(&book, &mut short, &mut work),
        Err(error(Refusal::OutTooShort))
    );
    assert!(short.iter().all(|byte| *byte == 9));
    assert!(work.iter().all(|byte| *byte == 0));

    let little = &mut work[..WORK_BYTES - 1];
    little.fill(7);
    assert_eq!(
        elaborate_into(&book, &mut out, little),
        Err(error(Refusal::WorkTooShort))
    );
    assert!(little.iter().all(|byte| *byte == 0));
    assert_eq!(
        premise_with(&book, &mut []),
        Err(error(Refusal::WorkTooShort))
    );
}

#[test]
fn books_that_are_refused() {
    assert_eq!(elaborate(&[]), Err(error_at(Refusal::NotABook, 0)));
    assert_eq!(
        elaborate(&[0; BOOK_BYTES + 1]),
        Err(error(Refusal::BookTooLong))
    );
    assert_eq!(
        elaborate(&example("p04.book")),
        Err(error(Refusal::NoBinder))
    );
}

#[test]
fn every_call_names_the_byte() {
    // 64 Vecs and a tag
    let mut deep = vec![1, 0, 1, 0, 8, 0, 68, 0, 0, 0, 0];
    deep.extend([8; 64]);
    deep.push(13);
    for (book, expected) in [
        (vec![1, 0], error_at(Refusal::NotABook, 2)),
        (vec![0, 0, 0], error_at(Refusal::NotABook, 2)),
        (vec![1, 0, 2, 0, 8, 0, 0, 0], error_at(Refusal::NotABook, 8)),
        (
            vec![1, 0, 2, 0, 8, 0, 2, 0, 1, b'.'],
            error_at(Refusal::BadName, 8),
        ),
        (deep, error_at(Refusal::TooDeep, 75)),
    ] {
        assert_eq!(elaborate(&book), Err(expected));
        assert_eq!(elaborate_nested(&book), Err(expected));
        assert_eq!(premise(&book), Err(expected));
    }
}
