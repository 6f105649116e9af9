//! Everything in a book survives: bytes, tree, the Rust's AST, text.

use driver::bridge::{from_ast, to_ast};
use driver::build::*;
use driver::cases::{along, case, STEPS, TAGS};
use driver::notation;
use driver::read::read;
use driver::tree::{Book, Cases, Field, Inner, Length, LEAVES};
use driver::{measure, write};

/// Books that can be read, whatever their answer.
fn readable() -> Vec<Book> {
    let generated = (0..3000).filter_map(|number| read(&case(11, number).bytes).ok());
    generated.chain([every_item()]).collect()
}

/// Every tag and every kind of item, each text and name different.
fn every_item() -> Book {
    let mut fields: Vec<Field> = LEAVES
        .iter()
        .enumerate()
        .map(|(number, leaf)| {
            let text = vec![number as u8, 0xff, 0];
            field(&format!("l{number}"), Inner::Leaf(*leaf, text))
        })
        .collect();
    let length = |text: &str| Length {
        roots: ["z", "a", "", "z", "é"].map(String::from).to_vec(),
        text: text.into(),
    };
    fields.extend([
        Field::Const("c".into(), b"const".to_vec()),
        dependent("d", Inner::Bytes(length("bytes"))),
        field(
            "w",
            Inner::Wrap(b"prior".to_vec(), Box::new(int().into()), b"post".to_vec()),
        ),
        field(
            "a",
            Inner::Array(length("array"), Box::new(option(nothing()).into())),
        ),
        field(
            "e",
            choice(
                Some("d.x."),
                Cases::Enums(vec![("".into(), nothing().into())]),
            ),
        ),
        field(
            "i",
            choice(None, Cases::Ints(vec![(b"1".to_vec(), vec(int()).into())])),
        ),
        field(
            "r",
            choice(Some(".."), Cases::Arrays(vec![(vec![], nothing().into())])),
        ),
        field("v", call("m", &["d", "", ".x", "é.y"])),
        field("x", macro_call("f", vec![int(), macro_call("", vec![])])),
        field(
            "h",
            driver::tree::Combinator::chained(bytes(&[]), nothing().into()),
        ),
    ]);
    book(vec![
        byte_order(b"first"),
        format_with(
            "m",
            vec![("p", int()), ("p", vec(nothing()))],
            structure(fields),
        ),
        constant("", b"\xff\x00"),
        byte_order(b""),
        macro_definition("f", &["a", "", "a"], call("a", &[])),
        byte_order(b"third"),
    ])
}

#[test]
fn bytes_and_tree() {
    for one in readable() {
        let bytes = write::write(&one).expect("a book");
        assert_eq!(read(&bytes), Ok(one));
    }
}

#[test]
fn read_bytes_are_written_again() {
    for number in 0..3000 {
        let bytes = case(12, number).bytes;
        if let Ok(book) = read(&bytes) {
            assert_eq!(write::write(&book), Ok(bytes));
        }
    }
}

#[test]
fn the_ast_of_the_rust() {
    for one in readable() {
        let (definitions, texts) = to_ast(&one);
        assert_eq!(from_ast(&definitions, &texts), Ok(one));
    }
}

#[test]
fn roots_come_from_collect_dependent_ids() {
    let roots = ["z", "a", "", "z", "é", "b", "b"];
    let one = book(vec![format("m", bytes(&roots))]);
    let (definitions, texts) = to_ast(&one);
    let vest::ast::Definition::Combinator { combinator, .. } = &definitions[0] else {
        panic!("a format")
    };
    let vest::ast::CombinatorInner::Bytes(found) = &combinator.inner else {
        panic!("bytes")
    };
    let ids: Vec<String> = found
        .len
        .collect_dependent_ids()
        .iter()
        .map(|id| id.to_identifier().name)
        .collect();
    assert_eq!(ids, roots);
    assert_eq!(from_ast(&definitions, &texts), Ok(one));
}

#[test]
fn a_moved_byte_order_is_noticed() {
    let one = book(vec![byte_order(b"a"), byte_order(b"b")]);
    let (mut definitions, texts) = to_ast(&one);
    definitions.swap(0, 1);
    assert!(from_ast(&definitions, &texts).is_err());
    definitions.pop();
    assert!(from_ast(&definitions, &texts).is_err());
}

#[test]
fn measured_as_written() {
    for one in readable() {
        let (definitions, texts) = to_ast(&one);
        let measure = measure::book(&definitions, &texts).expect("a measure");
        assert_eq!(measure.bytes, write::write(&one).expect("a book").len());
        assert!(measure.levels <= 64);
    }
}

#[test]
fn text_and_back() {
    for one in readable() {
        let text = notation::print(&one);
        assert_eq!(notation::parse(&text), Ok(one), "{text}");
    }
}

#[test]
fn every_tag_in_every_pair_of_places() {
    for first in 0..STEPS {
        for second in 0..STEPS {
            for tag in 0..TAGS {
                let one = along(&[first, second], tag, first, true, true);
                let bytes = write::write(&one).expect("a book");
                assert_eq!(read(&bytes).as_ref(), Ok(&one));
                driver::answer::answer(&bytes, driver::expand::Mode::Plain)
                    .expect("both readings agree");
            }
        }
    }
}
