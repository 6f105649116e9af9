//! From the first difference to the smallest book that still shows one.

use crate::callee::Callee;
use crate::case::{judge, Case, Out, Sizes, PLAIN};
use crate::smaller;
use std::time::{Duration, Instant};

/// Long enough for every book; none is shrunk for ever.
const PATIENCE: Duration = Duration::from_secs(120);

/// A case no part of which can go, with what differs in it. Where buffers are not the reason they are plain ones.
pub fn shrink(callee: &mut dyn Callee, mut case: Case, mut difference: String) -> (Case, String) {
    let start = Instant::now();
    for sizes in plainer(case.sizes) {
        let plain = Case {
            sizes,
            ..case.clone()
        };
        if let Some(found) = differs(callee, &plain) {
            (case, difference) = (plain, found);
            break;
        }
    }
    loop {
        let mut found = None;
        smaller::book(&case.book, &mut |book| {
            let smaller = Case {
                book,
                ..case.clone()
            };
            found = differs(callee, &smaller).map(|difference| (smaller, difference));
            found.is_some() || start.elapsed() > PATIENCE
        });
        match found {
            Some(smaller) => (case, difference) = smaller,
            None => return (case, difference),
        }
    }
}

/// The buffers of a case, plainest first.
fn plainer(sizes: Sizes) -> Vec<Sizes> {
    let longer = Sizes {
        out: Out::Longer(0),
        ..PLAIN
    };
    let work = Sizes {
        work: PLAIN.work,
        ..sizes
    };
    let out = Sizes {
        out: PLAIN.out,
        ..sizes
    };
    vec![PLAIN, longer, work, out]
}

fn differs(callee: &mut dyn Callee, case: &Case) -> Option<String> {
    match judge(callee, case) {
        Ok(Err(difference)) => Some(difference),
        Ok(Ok(_)) => None,
        Err(internal) => Some(internal),
    }
}

/// A case as the report of a difference shows it.
pub fn shown(case: &Case) -> String {
    let hex: Vec<String> = case.book.iter().map(|byte| format!("{byte:02x}")).collect();
    let text = match driver::read::read(&case.book) {
        Ok(book) => driver::notation::print(&book),
        Err(refusal) => format!("({refusal})\n"),
    };
    format!(
        "{:?} with {:?}\n{} bytes: {}\n{text}",
        case.call,
        case.sizes,
        case.book.len(),
        hex.join(" ")
    )
}
