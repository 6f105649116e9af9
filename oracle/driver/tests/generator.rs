//! The generator: the same again, every code, and nothing that splits the two
//! readings.

use driver::answer::{answer, Answer};
use driver::cases::{case, nested_case, short, KINDS, NESTED_KINDS};
use driver::expand::Mode;
use driver::passes::{passes, End};
use std::collections::BTreeMap;

fn code(bytes: &[u8]) -> u8 {
    answer(bytes, Mode::Plain)
        .expect("both readings agree")
        .code()
}

#[test]
fn one_seed_one_stream() {
    for number in 0..500 {
        assert_eq!(case(5, number).bytes, case(5, number).bytes);
    }
    let differ = (0..100).filter(|n| case(5, *n).bytes != case(6, *n).bytes);
    assert!(differ.count() > 90);
    for number in 0..500 {
        assert_eq!(nested_case(5, number).bytes, nested_case(5, number).bytes);
    }
}

#[test]
fn each_code_has_one_case_in_a_hundred() {
    let mut codes: BTreeMap<u8, usize> = BTreeMap::new();
    for number in 0..20_000 {
        *codes.entry(code(&case(1, number).bytes)).or_default() += 1;
    }
    for wanted in [0, 2, 3, 4, 5, 6, 7, 8, 9, 10] {
        let count = codes.get(&wanted).copied().unwrap_or(0);
        assert!(count >= 200, "code {wanted}: {count} of 20000");
    }
}

#[test]
fn shares_are_of_a_thousand() {
    assert_eq!(KINDS.iter().map(|(_, share)| share).sum::<usize>(), 1000);
    let nested = NESTED_KINDS.iter().map(|(_, share)| share);
    assert_eq!(nested.sum::<usize>(), 1000);
}

/// Each count of passes, growth in a later pass and both ways to 12 have one
/// nested case in a hundred or so, and each code comes after a second pass.
#[test]
fn nested_cases_need_every_count_of_passes() {
    let mut ends: BTreeMap<(usize, End), usize> = BTreeMap::new();
    let mut later: BTreeMap<u8, usize> = BTreeMap::new();
    for number in 0..10_000 {
        let bytes = nested_case(1, number).bytes;
        let code = answer(&bytes, Mode::Nested)
            .expect("both readings agree")
            .code();
        if let Some((pass, end)) = passes(&bytes).expect("both readings agree") {
            *ends.entry((pass, end)).or_default() += 1;
            if pass > 1 {
                *later.entry(code).or_default() += 1;
            }
        }
    }
    let ended = |pass, end| ends.get(&(pass, end)).copied().unwrap_or(0);
    for pass in 1..=16 {
        assert!(ended(pass, End::Settled) >= 100, "pass {pass}: {ends:?}");
        assert!(
            pass == 1 || ended(pass, End::Grown) >= 8,
            "6 in pass {pass}: {ends:?}"
        );
    }
    assert!(ended(16, End::LongChain) >= 500, "{ends:?}");
    assert!(ended(16, End::Cycle) >= 1000, "{ends:?}");
    for code in [0, 6, 7, 8, 9, 10, 12] {
        assert!(
            later.get(&code).is_some_and(|count| *count >= 80),
            "{later:?}"
        );
    }
}

#[test]
fn short_strings_are_no_books_but_one() {
    let mut count = 0;
    for bytes in short::strings() {
        let expected = if bytes == [0, 0] { 0 } else { 3 };
        assert_eq!(code(&bytes), expected, "{bytes:?}");
        count += 1;
    }
    assert_eq!(count, 1 + 256 + 65_536);
}

/// Every seventh, to keep the run short; `oracle short` streams all of them.
#[test]
fn short_books_split_no_readings() {
    for bytes in short::books().step_by(7) {
        assert!([0, 7, 8].contains(&code(&bytes)), "{bytes:?}");
    }
}

#[test]
fn nested_mode_splits_no_readings() {
    for number in 0..3000 {
        let bytes = case(9, number).bytes;
        let plain = answer(&bytes, Mode::Plain).expect("both readings agree");
        let nested = answer(&bytes, Mode::Nested).expect("both readings agree");
        let early = matches!(plain.code(), 2..=6);
        assert!(!early || plain == nested);
    }
}

#[test]
fn a_result_comes_back_unchanged() {
    for number in 0..2000 {
        if let Ok(Answer::Done(done)) = answer(&case(13, number).bytes, Mode::Plain) {
            match answer(&done.book, Mode::Plain) {
                Ok(Answer::Done(again)) => {
                    assert_eq!(again.book, done.book);
                    assert_eq!(again.lifted, 0);
                }
                other => panic!("case {number}: {other:?}"),
            }
        }
    }
}

/// The books around the port's tables are as long as they say, and each is accepted; those that are told by their
/// expansion are short, and their results are a byte apart.
#[test]
fn around_tables() {
    let books = driver::cases::around_tables();
    let mut lengths: Vec<usize> = books.iter().take(40).map(Vec::len).collect();
    lengths.dedup();
    let sides = [128usize, 512, 2048, 4096]
        .into_iter()
        .flat_map(|bytes| bytes - 2..=bytes + 2);
    assert_eq!(lengths, sides.collect::<Vec<_>>());
    assert!(books[40..45].iter().all(|book| book.len() <= 512));
    for book in &books {
        assert_eq!(code(book), 0);
    }
    let results: Vec<usize> = books[40..45]
        .iter()
        .map(|book| match answer(book, Mode::Plain) {
            Ok(Answer::Done(done)) => done.book.len(),
            other => panic!("{other:?}"),
        })
        .collect();
    assert!(results.windows(2).all(|two| two[0] + 1 == two[1]));
}
