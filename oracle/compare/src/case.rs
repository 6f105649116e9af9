//! A case, what documents 01 and 02 say of it, and whether the callee says the same.

use crate::callee::{Call, Callee, Numbers, Reply, Request, Times};
use driver::answer::{answer, premise, Answer, Internal, Premise};
use driver::cases::Rng;
use driver::expand::Mode;
use driver::limits::BOOK_BYTES;
use driver::stop::Refusal;

pub const WORK_BYTES: usize = 65_536;

const WORK_TOO_SHORT: u8 = 1;
const OUT_TOO_SHORT: u8 = 11;

#[derive(Debug, Clone, PartialEq, Eq)]
pub struct Case {
    pub call: Call,
    pub book: Vec<u8>,
    pub sizes: Sizes,
}

/// The buffers, and the number of the noise in them.
#[derive(Debug, Clone, Copy, PartialEq, Eq)]
pub struct Sizes {
    pub out: Out,
    pub work: usize,
    pub noise: u32,
}

/// The output's length, or how much longer it is than the result. Where there is no result, it has one of no bytes.
#[derive(Debug, Clone, Copy, PartialEq, Eq)]
pub enum Out {
    Bytes(usize),
    Longer(isize),
}

/// Buffers that nothing is refused for.
pub const PLAIN: Sizes = Sizes {
    out: Out::Bytes(BOOK_BYTES),
    work: WORK_BYTES,
    noise: 0,
};

pub const WORKS: [usize; 7] = [
    0,
    1,
    WORK_BYTES - 1,
    WORK_BYTES,
    WORK_BYTES + 1,
    100_001,
    131_072,
];

pub const OUTS: [Out; 9] = [
    Out::Bytes(0),
    Out::Bytes(1),
    Out::Longer(-2),
    Out::Longer(-1),
    Out::Longer(0),
    Out::Longer(1),
    Out::Bytes(BOOK_BYTES),
    Out::Bytes(BOOK_BYTES + 1),
    Out::Bytes(50_000),
];

/// Sizes of all kinds, most of them long enough.
pub fn drawn(rng: &mut Rng) -> Sizes {
    let out = match rng.below(10) {
        0..=3 => Out::Longer(0),
        4..=6 => *rng.pick(&OUTS),
        7 => Out::Bytes(rng.below(BOOK_BYTES)),
        _ => Out::Bytes(BOOK_BYTES),
    };
    let work = match rng.below(20) {
        0 => *rng.pick(&WORKS),
        1 => rng.below(2 * WORK_BYTES),
        _ => WORK_BYTES,
    };
    let noise = rng.next() as u32;
    Sizes { out, work, noise }
}

/// What the call must answer, and the bytes of the output that it must write.
#[derive(Debug, Clone, PartialEq, Eq)]
pub struct Expected {
    pub numbers: Numbers,
    pub out: Vec<u8>,
    pub out_bytes: usize,
}

pub fn expected(case: &Case) -> Result<Expected, Internal> {
    match case.call {
        Call::Premise => Ok(of_premise(case, premise(&case.book, Mode::Plain)?)),
        Call::Elaborate => Ok(of_answer(case, answer(&case.book, Mode::Plain)?)),
        Call::Nested => Ok(of_answer(case, answer(&case.book, Mode::Nested)?)),
    }
}

/// A refusal of whatever call: every number but code and place is 0.
fn refused(refusal: Refusal, out_bytes: usize) -> Expected {
    Expected {
        numbers: [refusal.code.into(), 0, 0, 0, refusal.at as u32],
        out: Vec::new(),
        out_bytes,
    }
}

fn of_premise(case: &Case, judged: Premise) -> Expected {
    let out_bytes = out_bytes(case.sizes.out, 0);
    if case.sizes.work < WORK_BYTES {
        return refused(Refusal::of(WORK_TOO_SHORT), out_bytes);
    }
    match judged {
        Premise::Refused(refusal) => refused(refusal, out_bytes),
        Premise::Holds { yes, .. } => Expected {
            numbers: [0, yes.into(), 0, 0, 0],
            out: Vec::new(),
            out_bytes,
        },
    }
}

fn of_answer(case: &Case, judged: Answer) -> Expected {
    let result = match &judged {
        Answer::Done(done) => done.book.len(),
        Answer::Refused(_) => 0,
    };
    let out_bytes = out_bytes(case.sizes.out, result);
    if case.sizes.work < WORK_BYTES {
        return refused(Refusal::of(WORK_TOO_SHORT), out_bytes);
    }
    match judged {
        Answer::Refused(refusal) => refused(refusal, out_bytes),
        Answer::Done(_) if out_bytes < result => refused(Refusal::of(OUT_TOO_SHORT), out_bytes),
        Answer::Done(done) => Expected {
            numbers: [
                0,
                result as u32,
                done.definitions as u32,
                done.lifted as u32,
                0,
            ],
            out: done.book,
            out_bytes,
        },
    }
}

fn out_bytes(out: Out, result: usize) -> usize {
    match out {
        Out::Bytes(bytes) => bytes,
        Out::Longer(more) => result.saturating_add_signed(more),
    }
}

/// The answer on which both agree, or what differs.
pub fn judge(callee: &mut dyn Callee, case: &Case) -> Result<Result<Expected, String>, Internal> {
    let expected = expected(case)?;
    let request = Request {
        call: case.call,
        book: &case.book,
        out: expected.out_bytes,
        work: case.sizes.work,
        noise: case.sizes.noise,
        times: Times::Once,
    };
    Ok(match callee.call(&request) {
        Err(ended) => Err(ended),
        Ok(reply) => match difference(case.call, &expected, &reply) {
            Some(text) => Err(text),
            None => Ok(expected),
        },
    })
}

/// An answer in words, place included.
fn in_words(call: Call, numbers: Numbers) -> String {
    let [code, length, definitions, lifted, at] = numbers;
    match call {
        Call::Premise => format!("code {code}, holds {length}, at {at}"),
        Call::Elaborate | Call::Nested => format!(
            "code {code}, length {length}, definitions {definitions}, lifted {lifted}, at {at}"
        ),
    }
}

fn difference(call: Call, expected: &Expected, reply: &Reply) -> Option<String> {
    if reply.numbers != expected.numbers {
        return Some(format!(
            "answered {}; expected {}",
            in_words(call, reply.numbers),
            in_words(call, expected.numbers)
        ));
    }
    if reply.work_not_zero != 0 {
        return Some(format!(
            "{} bytes of the work area are not zero",
            reply.work_not_zero
        ));
    }
    if reply.strayed != 0 {
        return Some(format!("{} bytes outside were written", reply.strayed));
    }
    let (got, wanted) = (&reply.out, &expected.out);
    if got == wanted {
        return None;
    }
    Some(match got.iter().zip(wanted).position(|(a, b)| a != b) {
        Some(at) => format!(
            "byte {at} of the output is {:02x}, expected {:02x}",
            got[at], wanted[at]
        ),
        None => format!(
            "{} bytes of the output changed, expected {}",
            got.len(),
            wanted.len()
        ),
    })
}
