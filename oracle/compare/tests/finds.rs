//! The comparison against callees made for it: an honest one passes, and of each fault the smallest book is found.

use compare::callee::{Call, Callee, Reply, Request};
use compare::case::{expected, judge, Case, Out, Sizes, PLAIN};
use compare::shrink::{shown, shrink};
use compare::tally::Tally;
use driver::cases::{case, nested_case, Rng};
use driver::passes::{passes, End};
use driver::places::places;

/// Answers as the oracle does, then does what is wrong with it.
struct Fake(fn(&Request, &mut Reply));

impl Callee for Fake {
    fn call(&mut self, request: &Request) -> Result<Reply, String> {
        let case = Case {
            call: request.call,
            book: request.book.to_vec(),
            sizes: Sizes {
                out: Out::Bytes(request.out),
                work: request.work,
                noise: request.noise,
            },
        };
        let honest = expected(&case)?;
        let mut reply = Reply {
            numbers: honest.numbers,
            out: honest.out,
            work_not_zero: 0,
            strayed: 0,
            measure: 0,
        };
        self.0(request, &mut reply);
        Ok(reply)
    }
}

fn cases(call: Call) -> impl Iterator<Item = Case> {
    (0..1500).map(move |number| Case {
        call,
        book: match call {
            Call::Nested => nested_case(3, number).bytes,
            Call::Elaborate | Call::Premise => case(3, number).bytes,
        },
        sizes: compare::case::drawn(&mut Rng::of_case(4, number)),
    })
}

/// The smallest book for the first difference that a fault makes.
fn found(call: Call, fault: fn(&Request, &mut Reply)) -> Case {
    found_in(cases(call), fault)
}

fn found_in(cases: impl Iterator<Item = Case>, fault: fn(&Request, &mut Reply)) -> Case {
    let mut fake = Fake(fault);
    for case in cases {
        if let Err(difference) = judge(&mut fake, &case).expect("the oracle agrees with itself") {
            return shrink(&mut fake, case, difference).0;
        }
    }
    panic!("no case shows the fault");
}

#[test]
fn an_honest_callee_passes() {
    for call in Call::ALL {
        for case in cases(call) {
            assert!(judge(&mut Fake(|_, _| {}), &case).unwrap().is_ok());
        }
    }
}

#[test]
fn a_wrong_code_shrinks_to_a_smallest_book() {
    let case = found(Call::Elaborate, |_, reply| {
        if reply.numbers[0] == 8 {
            reply.numbers[0] = 7;
        }
    });
    assert_eq!(case.sizes, PLAIN);
    assert_eq!(expected(&case).unwrap().numbers[0], 8);
    assert!(case.book.len() <= 26, "{} bytes", case.book.len());
}

#[test]
fn a_result_that_is_too_short_is_noticed() {
    let case = found(Call::Elaborate, |_, reply| {
        reply.out.pop();
    });
    assert_eq!(case.book, [0, 0]);
}

#[test]
fn a_byte_behind_the_result_is_noticed() {
    let case = found(Call::Elaborate, |request, reply| {
        if reply.numbers[0] == 0 && reply.out.len() < request.out {
            reply.out.push(0);
        }
    });
    assert_eq!((case.book, case.sizes), (vec![0, 0], PLAIN));
}

#[test]
fn an_output_written_on_refusals_is_noticed() {
    let case = found(Call::Elaborate, |_, reply| {
        if reply.numbers[0] == 11 {
            reply.out.push(0);
        }
    });
    assert_eq!(case.book, [0, 0]);
    assert_ne!(case.sizes.out, PLAIN.out);
}

#[test]
fn a_count_that_is_invented_is_noticed() {
    let case = found(Call::Elaborate, |_, reply| {
        if reply.numbers[3] > 1 {
            reply.numbers[3] = 1;
        }
    });
    assert_eq!(expected(&case).unwrap().numbers[3], 2);
}

#[test]
fn a_work_area_that_is_not_cleared_when_short_is_noticed() {
    let case = found(Call::Premise, |request, reply| {
        if request.work < 65_536 {
            reply.work_not_zero = request.work as u32;
        }
    });
    assert_eq!(case.book, []);
    assert!((1..65_536).contains(&case.sizes.work));
}

#[test]
fn a_wrong_yes_shrinks_to_a_call_of_nothing() {
    let case = found(Call::Premise, |_, reply| {
        if reply.numbers == [0; 5] {
            reply.numbers[1] = 1;
        }
    });
    assert!(case.book.len() <= 20, "{} bytes", case.book.len());
}

#[test]
fn a_wrong_place_is_noticed_in_every_call() {
    for call in Call::ALL {
        let cases = places().into_iter().map(|one| Case {
            call,
            book: one.bytes,
            sizes: PLAIN,
        });
        let case = found_in(cases, |_, reply| {
            reply.numbers[4] = reply.numbers[4].saturating_sub(1);
        });
        assert_eq!(case.book, [1, 0]);
    }
}

#[test]
fn a_place_where_none_belongs_is_noticed() {
    for call in Call::ALL {
        let case = found(call, |_, reply| {
            if reply.numbers[0] == 0 {
                reply.numbers[4] = 1;
            }
        });
        assert_eq!((case.book, case.sizes), (vec![0, 0], PLAIN));
    }
}

#[test]
fn a_report_tells_both_places() {
    let case = Case {
        call: Call::Premise,
        book: vec![1, 0],
        sizes: PLAIN,
    };
    let mut fake = Fake(|_, reply| reply.numbers[4] = 0);
    let difference = judge(&mut fake, &case).unwrap().expect_err("a difference");
    assert_eq!(
        difference,
        "answered code 3, holds 0, at 0; expected code 3, holds 0, at 2"
    );
    assert!(shown(&case).contains("(refused 3 at 2)"));
}

#[test]
fn a_nested_mode_that_is_the_plain_one_is_noticed() {
    let case = found(Call::Nested, |request, reply| {
        let plain = Case {
            call: Call::Elaborate,
            book: request.book.to_vec(),
            sizes: PLAIN,
        };
        let plain = expected(&plain).unwrap();
        if request.work >= 65_536 && reply.numbers[0] != 11 {
            (reply.numbers, reply.out) = (plain.numbers, plain.out);
        }
    });
    // Two macros and a format.
    assert!(case.book.len() <= 60, "{} bytes", case.book.len());
}

#[test]
fn a_12_that_is_a_6_shrinks_to_a_bare_chain() {
    let case = found(Call::Nested, |_, reply| {
        if reply.numbers[0] == 12 {
            reply.numbers[0] = 6;
        }
    });
    assert_eq!(case.sizes, PLAIN);
    assert!(case.book.len() <= 200, "{} bytes", case.book.len());
}

#[test]
fn a_pass_too_few_is_noticed() {
    let case = found(Call::Nested, |request, reply| {
        let last = passes(request.book) == Ok(Some((16, End::Settled)));
        if last && request.work >= 65_536 {
            (reply.numbers, reply.out) = ([12, 0, 0, 0, 0], Vec::new());
        }
    });
    assert_eq!(passes(&case.book), Ok(Some((16, End::Settled))));
}

#[test]
fn passes_are_counted_in_a_table() {
    let mut tally = Tally::default();
    tally.begin("macros in macros");
    for case in cases(Call::Nested) {
        let agreed = expected(&case).unwrap();
        tally.count(&case, &agreed).unwrap();
    }
    let tables = tally.tables();
    let (codes, passes) = tables.split_once("\n\n").expect("two tables");
    assert!(codes.starts_with("| nested | macros in macros | all |\n"));
    assert!(codes.contains("\n| 12 | "));
    let rows: Vec<&str> = passes.lines().collect();
    assert_eq!(
        rows[0],
        "| passes | no known call left | 6 | 12, a chain | 12, a cycle |"
    );
    for pass in 1..=16 {
        let cells: Vec<&str> = rows[1 + pass].split(" | ").collect();
        assert_eq!(cells[0], format!("| {pass}"));
        assert_ne!(cells[1], "0", "pass {pass}");
        assert_eq!(cells[3] == "0", pass < 16, "a chain in pass {pass}");
        assert_eq!(cells[4] == "0 |", pass < 16, "a cycle in pass {pass}");
    }
}
