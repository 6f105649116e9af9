//! The worked books, the settled readings and the limits from both sides.

use driver::answer::{answer, premise, Answer, Premise};
use driver::cases::{both_sides, nested_sides};
use driver::expand::Mode;
use driver::listing::listing;
use driver::notation;
use driver::passes::{passes, End};
use driver::read::read;
use driver::stories::{binder_search, lifted_names, nested_stories, six_uses, stories};
use driver::tree::{Book, Definition, Inner};
use driver::write::write;
use std::fs;
use std::path::PathBuf;

fn plain(bytes: &[u8]) -> Answer {
    answer(bytes, Mode::Plain).expect("both readings agree")
}

fn nested(bytes: &[u8]) -> Answer {
    answer(bytes, Mode::Nested).expect("both readings agree")
}

fn parsed(text: &str) -> Vec<u8> {
    write(&notation::parse(text).expect("the notation")).expect("a book")
}

fn result(answer: &Answer) -> Book {
    match answer {
        Answer::Done(done) => read(&done.book).expect("a result is a book"),
        Answer::Refused(refusal) => panic!("{refusal}"),
    }
}

fn examples() -> PathBuf {
    PathBuf::from(env!("CARGO_MANIFEST_DIR")).join("../../examples")
}

#[test]
fn stories_answer_as_they_say() {
    for one in stories() {
        let answer = plain(&one.bytes);
        assert_eq!(answer.code(), one.code, "{}", one.name);
        if let Some(lifted) = one.lifted {
            assert_eq!(lifted_names(&answer), lifted, "{}", one.name);
        }
    }
}

#[test]
fn nested_stories_answer_as_they_say() {
    for one in nested_stories() {
        let answer = nested(&one.bytes);
        assert_eq!(answer.code(), one.code, "{}", one.name);
        if let Some(lifted) = one.lifted {
            assert_eq!(lifted_names(&answer), lifted, "{}", one.name);
        }
    }
}

#[test]
fn limits_hold_from_both_sides() {
    for side in both_sides() {
        assert_eq!(plain(&side.bytes).code(), side.code, "{}", side.name);
    }
    for side in nested_sides() {
        assert_eq!(nested(&side.bytes).code(), side.code, "{}", side.name);
    }
}

#[test]
fn the_accepted_side_stands_exactly_at_the_limit() {
    let side = |name| {
        let sides = both_sides();
        let side = sides.into_iter().find(|side| side.name == name);
        plain(&side.expect("a side of this name").bytes)
    };
    let result_of = |name| match side(name) {
        Answer::Done(done) => done,
        Answer::Refused(refusal) => panic!("{name}: {refusal}"),
    };
    assert_eq!(result_of("bytes of a book").book.len(), 16_384);
    assert_eq!(result_of("bytes of a result").book.len(), 16_384);
    assert_eq!(result_of("bytes of the book left").book.len(), 16_384);
    assert_eq!(result_of("definitions of a result").definitions, 512);
    assert_eq!(result_of("definitions of a book").definitions, 512);
    let names = lifted_names(&side("bytes of a lifted name"));
    assert_eq!(names.iter().map(String::len).max(), Some(255));
}

/// The parameters of a format of a result, each with its type's text.
fn typed(answer: &Answer, format: &str) -> Vec<(String, String)> {
    let book = result(answer);
    let found = book
        .definitions
        .iter()
        .find_map(|definition| match definition {
            Definition::Format { name, params, .. } if name == format => Some(params.clone()),
            _ => None,
        });
    let text = |inner| match inner {
        Inner::Leaf(_, text) => String::from_utf8_lossy(&text).into_owned(),
        other => format!("{other:?}"),
    };
    let params = found.expect("the format is in the result");
    params
        .into_iter()
        .map(|(name, inner)| (name, text(inner)))
        .collect()
}

#[test]
fn the_search_starts_at_the_source_definition() {
    let answer = plain(&write(&binder_search()).expect("a book"));
    let n = |text: &str| vec![("n".to_string(), text.to_string())];
    assert_eq!(typed(&answer, "m_s_h"), n("one"));
    assert_eq!(typed(&answer, "m_s"), vec![]);
}

#[test]
fn identifiers_compare_by_name() {
    let answer = plain(&write(&six_uses()).expect("a book"));
    assert_eq!(typed(&answer, "m_s").len(), 1);
}

#[test]
fn a_lifted_binder_types_by_its_call() {
    let book = parsed("format m = struct { @n: enum, h: struct { b: bytes[@n] } }");
    let types = typed(&plain(&book), "m_h");
    assert_eq!(types[0].1, "Invocation(\"m_n\", [])");
}

#[test]
fn examples_are_what_their_text_says() {
    let mut seen = 0;
    for entry in fs::read_dir(examples()).expect("examples") {
        let path = entry.expect("an entry").path();
        if path.extension().is_some_and(|ending| ending == "layout") {
            let text = fs::read_to_string(&path).expect("a text");
            let book = fs::read(path.with_extension("book")).expect("its book");
            let listed = fs::read_to_string(path.with_extension("listing")).expect("its listing");
            assert_eq!(parsed(&text), book, "{}", path.display());
            assert_eq!(listing(&plain(&book)), Ok(listed), "{}", path.display());
            seen += 1;
        }
    }
    assert_eq!(seen, 17);
}

#[test]
fn the_nested_example_is_what_its_text_says() {
    let file = |ending| examples().join(format!("nested/packing-list.{ending}"));
    let text = |ending| fs::read_to_string(file(ending)).expect("a text");
    let book = fs::read(file("book")).expect("its book");
    assert_eq!(parsed(&text("layout")), book);
    assert_eq!(listing(&plain(&book)), Ok(text("listing")));
    assert_eq!(listing(&nested(&book)), Ok(text("nested")));
    assert_eq!(passes(&book), Ok(Some((2, End::Settled))));
    // The inner calls stay in one pass, and in nested mode none is left.
    let calls = |answer| notation::print(&result(answer)).matches("dated!(").count();
    assert_eq!((calls(&plain(&book)), calls(&nested(&book))), (7, 0));
    // As the layout says: inside a nested format one pass is refused.
    let inside = text("layout") + "format label = struct { head: record!(uuid) }";
    assert_eq!(plain(&parsed(&inside)).code(), 7);
    assert_eq!(nested(&parsed(&inside)).code(), 0);
}

#[test]
fn worked_bytes_of_document_01() {
    let p2 = [1, 0, 1, 0, 8, 0, 8, 0, 1, 0x65, 0, 0, 0x0d, 0, 0, 0];
    assert_eq!(fs::read(examples().join("p01.book")).expect("P1"), [0, 0]);
    assert_eq!(fs::read(examples().join("p02.book")).expect("P2"), p2);
    assert_eq!(result(&plain(&p2)), read(&p2).expect("P2"));
}

#[test]
fn nested_macros_and_their_limit() {
    let nested = |text: &str| nested(&parsed(text)).code();
    let twice = "macro f!() = struct { x: g!() } macro g!() = nothing format m = vec<f!()>";
    assert_eq!(plain(&parsed(twice)).code(), 7);
    assert_eq!(nested(twice), 0);
    assert_eq!(nested("macro f!() = f!() format m = f!()"), 12);
    assert_eq!(nested("macro f!() = vec<f!()> format m = vec<f!()>"), 12);
    let grows = "macro f!() = struct { a: f!(), b: f!() } format m = f!()";
    assert_eq!(nested(grows), 6);
    let unreached = "macro f!() = nothing format m = zz!(f!())";
    assert_eq!(nested(unreached), 0);
}

#[test]
fn passes_are_counted() {
    let chain = |count: usize| {
        let macros = (1..count).map(|n| format!("macro f{}!() = f{n}!()\n", n - 1));
        let last = format!("macro f{}!() = nothing\n", count - 1);
        let text: String = macros.chain([last]).collect();
        parsed(&format!("{text}format m = f0!()"))
    };
    for count in 1..=16 {
        assert_eq!(nested(&chain(count)).code(), 0);
        assert_eq!(passes(&chain(count)), Ok(Some((count, End::Settled))));
    }
    assert_eq!(nested(&chain(17)).code(), 12);
}

#[test]
fn how_the_passes_end() {
    let end = |text: &str| passes(&parsed(text)).expect("agreement");
    let chain = "macro f!(a) = a format m = ";
    let deep = |count: usize| format!("{}nothing{}", "f!(".repeat(count), ")".repeat(count));
    assert_eq!(end("format m = zz!()"), Some((1, End::Settled)));
    assert_eq!(
        end(&format!("{chain}{}", deep(17))),
        Some((16, End::LongChain))
    );
    assert_eq!(
        end("macro f!() = f!() format m = f!()"),
        Some((16, End::Cycle))
    );
    let put_in = "macro g!(a) = a macro f!() = g!(f!()) format m = f!()";
    assert_eq!(end(put_in), Some((16, End::Cycle)));
    let aside = "macro o!() = o!() macro f!(a) = a format m = struct { a: zz!(o!()), b: ";
    assert_eq!(
        end(&format!("{aside}{} }}", deep(17))),
        Some((16, End::LongChain))
    );
    let grows = "macro f!() = struct { a: f!(), b: f!() } format m = f!()";
    assert_eq!(end(grows), Some((10, End::Grown)));
    assert_eq!(passes(&[0]), Ok(None));
}

#[test]
fn the_premise_looks_at_calls_and_chains_of_bodies() {
    let yes = |text: &str| match premise(&parsed(text), Mode::Plain) {
        Ok(Premise::Holds { yes, .. }) => yes,
        other => panic!("{other:?}"),
    };
    assert!(yes("format m = struct { a: m, b: k } const k = \"\""));
    assert!(!yes("format m = nope"));
    assert!(!yes("macro k!() = nothing format m = k"));
    assert!(yes("macro f!() = m format m = f!()"));
    assert!(yes("format m = zz!(nope)"));
    assert!(yes("format m(@n: nope) = bytes[@n] >>= tail >>= m"));
    assert!(!yes("format m = nothing >>= m"));
    assert!(yes("format m = zz!(vec<nothing >>= nope>)"));
    assert!(!yes("macro f!() = nothing format m = f!() >>= tail"));
}

// The gate's program `listings` lists copies of examples; those of the nested mode's folder have its name before theirs.
#[test]
fn listed_books_are_the_examples() {
    let data = examples().join("../crates/listings/data");
    for entry in fs::read_dir(data).expect("data of listings") {
        let path = entry.expect("entry").path();
        let name = path
            .file_name()
            .and_then(|name| name.to_str())
            .expect("name");
        let original = match name.strip_prefix("nested-") {
            Some(rest) => examples().join("nested").join(rest),
            None => examples().join(name),
        };
        assert_eq!(
            fs::read(&path).expect("copy"),
            fs::read(original).expect("original"),
            "{}",
            path.display()
        );
    }
}
