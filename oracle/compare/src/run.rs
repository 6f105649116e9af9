//! The whole comparison: every part, until the first difference.

use crate::callee::{Call, Callee};
use crate::case::{judge, Case};
use crate::parts::parts;
use crate::shrink::{shown, shrink};
use crate::tally::Tally;
use std::time::{Duration, Instant};

const BETWEEN_LINES: Duration = Duration::from_secs(10);

/// The tables, or the first difference in its smallest form. Progress goes through `say`, a line at a time.
pub fn run(
    callee: &mut dyn Callee,
    calls: &[Call],
    seed: u64,
    count: u64,
    say: &mut dyn FnMut(&str),
) -> Result<String, String> {
    let mut tally = Tally::default();
    let start = Instant::now();
    for part in parts(calls, seed, count) {
        tally.begin(part.name);
        say(&format!("{}: {} books", part.name, part.count));
        let mut last = Instant::now();
        for (number, (book, sizes)) in part.cases.enumerate() {
            let mut case = Case {
                call: Call::Premise,
                book,
                sizes,
            };
            for call in calls {
                case.call = *call;
                match judge(callee, &case) {
                    Ok(Ok(agreed)) => tally.count(&case, &agreed)?,
                    Ok(Err(difference)) => {
                        let place = format!("{} book {number}", part.name);
                        return Err(report(callee, &place, case, difference, say));
                    }
                    Err(internal) => {
                        return Err(format!(
                            "the oracle is at odds with itself: {internal}\n{}",
                            shown(&case)
                        ))
                    }
                }
            }
            if last.elapsed() > BETWEEN_LINES {
                last = Instant::now();
                let done = number + 1;
                say(&format!(
                    "{}: {done} of {}, none different",
                    part.name, part.count
                ));
            }
        }
    }
    Ok(format!(
        "{}\n{} calls, none different, in {} s\n",
        tally.tables(),
        tally.calls(),
        start.elapsed().as_secs()
    ))
}

fn report(
    callee: &mut dyn Callee,
    place: &str,
    case: Case,
    difference: String,
    say: &mut dyn FnMut(&str),
) -> String {
    say(&format!(
        "DIFFERENT in {place}, of {} bytes: {difference}; looking for a smaller book",
        case.book.len()
    ));
    let (case, difference) = shrink(callee, case, difference);
    format!("DIFFERENT in {place}: {difference}\n{}", shown(&case))
}
